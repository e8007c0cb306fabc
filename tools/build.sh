#!/usr/bin/env bash
# Proves every crate, and puts the programs in target/bin/ and the engine's static library for C and Rust in target/staticlib/.
#
#     bash tools/build.sh                 judgebook, rulerun, and capi, which is the library libcapi.a
#     bash tools/build.sh rulerun         what is named: these, or strips
#
# As many crates are proved at a time as there are processors, where there are 4 GB of memory for each. What an earlier run here proved is not
# proved again, unless it or what it rests on has changed. A program is run once, on the input that its crate stores.
set -euo pipefail
cd "$(dirname "$0")/.."
[ $# -gt 0 ] || set -- judgebook rulerun capi
for name in "$@"; do
  case $name in
    judgebook | rulerun | strips | capi) ;;
    *)
      echo "tools/build.sh: '$name' is none of judgebook, rulerun, strips, capi" >&2
      exit 2
      ;;
  esac
done
jobs=$(awk -v n="$(nproc)" '/^MemAvailable/ { m = int($2 / 4000000); print m < 1 ? 1 : m < n ? m : n }' /proc/meminfo)
rt all check --jobs "$jobs"
for name in "$@"; do
  cd "crates/$name"
  if [ "$name" = capi ]; then
    rt lib
    install -D -m 644 out/libcapi.a ../../target/staticlib/libcapi.a
  else
    input=stdin
    [ -e stdin ] || input=/dev/null
    rt run <"$input" | cmp - stdout
    install -D "out/$name" "../../target/bin/$name"
  fi
  cd ../..
done
