//! A book of the size of the French family benefits in the source paper: 6 scopes,
//! 63 variables and 83 clauses. Scopes call each other and hand values over; clauses
//! have conditions, exceptions, and exceptions of those. All amounts are made up.

use second::cases::draft::{Draft, DraftScope, NUMBER, YES_NO};
use second::Outcome;

pub const NAME: &str = "family benefits: 6 scopes, 63 variables, 83 clauses";

/// The book with a scope more, for tables.
pub const REVIEWED: &str = "family benefits, a household under review";

/// The scopes by their numbers: the last asks for all others.
const CHILD: u8 = 0;
const AMOUNTS: u8 = 1;
const INCOME: u8 = 2;
const ALLOWANCE: u8 = 3;
const GRANTS: u8 = 4;
pub const HOUSEHOLD: usize = 5;
pub const REVIEW: usize = 6;

const OWN: u8 = 255;
const NONE: u8 = 255;
const ALWAYS: u8 = 255;

/// A scope under construction.
struct Text(DraftScope);

impl Text {
    fn new(types: &str, subscopes: &[u8]) -> Text {
        let of = |c: char| if c == 'n' { NUMBER } else { YES_NO };
        Text(DraftScope {
            variables: types.chars().map(of).collect(),
            subscopes: subscopes.to_vec(),
            ..DraftScope::default()
        })
    }

    fn clause(&mut self, record: [u8; 6]) -> u8 {
        self.0.clauses.push(record);
        (self.0.clauses.len() - 1) as u8
    }

    /// The definition of a variable; the clause's number.
    fn define(&mut self, variable: u8, value: u8) -> u8 {
        self.clause([19, OWN, variable, NONE, ALWAYS, value])
    }

    /// An exception of a definition.
    fn except(&mut self, parent: u8, variable: u8, condition: u8, value: u8) -> u8 {
        self.clause([19, OWN, variable, parent, condition, value])
    }

    /// A rule: the variable is yes under the condition.
    fn rule(&mut self, variable: u8, condition: u8) -> u8 {
        self.clause([20, OWN, variable, NONE, condition, 1])
    }

    /// An exception of a rule.
    fn except_rule(&mut self, parent: u8, variable: u8, condition: u8, yes: u8) -> u8 {
        self.clause([20, OWN, variable, parent, condition, yes])
    }

    /// Hands a value over to a sub-scope.
    fn hand(&mut self, subscope: u8, variable: u8, value: u8) -> u8 {
        self.clause([19, subscope, variable, NONE, ALWAYS, value])
    }

    fn own(&mut self, variable: u8) -> u8 {
        self.0.own(variable)
    }

    fn of(&mut self, subscope: u8, variable: u8) -> u8 {
        self.0.subscope(subscope, variable)
    }

    fn number(&mut self, n: i32) -> u8 {
        self.0.number(n)
    }

    fn not(&mut self, a: u8) -> u8 {
        self.0.node(&[10, a])
    }

    fn both(&mut self, a: u8, b: u8) -> u8 {
        self.0.node(&[12, a, b])
    }

    fn add(&mut self, a: u8, b: u8) -> u8 {
        self.0.node(&[13, a, b])
    }

    fn subtract(&mut self, a: u8, b: u8) -> u8 {
        self.0.node(&[14, a, b])
    }

    fn less(&mut self, a: u8, b: u8) -> u8 {
        self.0.node(&[16, a, b])
    }

    fn choose(&mut self, condition: u8, yes: u8, no: u8) -> u8 {
        self.0.node(&[17, condition, yes, no])
    }

    /// Whether a variable is below a number.
    fn below(&mut self, variable: u8, n: i32) -> u8 {
        let (a, b) = (self.own(variable), self.number(n));
        self.less(a, b)
    }

    /// Whether a number is below a variable.
    fn above(&mut self, n: i32, variable: u8) -> u8 {
        let (a, b) = (self.number(n), self.own(variable));
        self.less(a, b)
    }

    /// An amount where a variable is above 0, else 0.
    fn amount_if_any(&mut self, variable: u8, amount: i32) -> u8 {
        let (any, yes, no) = (self.above(0, variable), self.number(amount), self.number(0));
        self.choose(any, yes, no)
    }

    /// An amount where a yes/no variable is yes, and another where it is no.
    fn amount_by(&mut self, variable: u8, yes: i32, no: i32) -> u8 {
        let (condition, yes, no) = (self.own(variable), self.number(yes), self.number(no));
        self.choose(condition, yes, no)
    }

    /// A variable is a number.
    fn is(&mut self, variable: u8, n: i32) -> u8 {
        let value = self.number(n);
        self.define(variable, value)
    }

    /// A variable is a number, unless a condition holds: then it is another.
    fn is_unless(&mut self, variable: u8, n: i32, condition: u8, other: i32) -> u8 {
        let parent = self.is(variable, n);
        let value = self.number(other);
        self.except(parent, variable, condition, value)
    }
}

/// A child: 0 age, 1 pay, 2 at school, 3 in care, 4 dependent, 5 most pay, 6 age limit,
/// 7 eligible, 8 older, 9 supplement, 10 counted.
fn child() -> DraftScope {
    let mut t = Text::new("nnyyynnyynn", &[]);
    t.is(0, 8);
    t.is(1, 0);
    let young = t.below(0, 16);
    let school = t.rule(2, young);
    let grown = t.above(24, 0);
    t.except_rule(school, 2, grown, 0);
    let infant = t.below(0, 0);
    t.rule(3, infant);
    let (age, limit) = (t.own(0), t.own(6));
    let within = t.less(age, limit);
    let dependent = t.rule(4, within);
    let (most, pay) = (t.own(5), t.own(1));
    let earns = t.less(most, pay);
    let earning = t.except_rule(dependent, 4, earns, 0);
    let (pupil, minor) = (t.own(2), t.below(0, 18));
    let spared = t.both(pupil, minor);
    t.except_rule(earning, 4, spared, 1);
    t.is(5, 952);
    let pupil = t.own(2);
    t.is_unless(6, 20, pupil, 21);
    let dependent = t.own(4);
    let eligible = t.rule(7, dependent);
    let care = t.own(3);
    t.except_rule(eligible, 7, care, 0);
    let teen = t.above(13, 0);
    t.rule(8, teen);
    let older = t.own(8);
    let supplement = t.is_unless(9, 0, older, 65);
    let eligible = t.own(7);
    let (none, nothing) = (t.not(eligible), t.number(0));
    t.except(supplement, 9, none, nothing);
    let eligible = t.own(7);
    t.is_unless(10, 0, eligible, 1);
    t.0
}

/// The year's amounts: 0 year, 1 base, 2 wage, 3 for two, 4 for a third, 5 low ceiling,
/// 6 high ceiling, 7 more per child.
fn amounts() -> DraftScope {
    let mut t = Text::new("nnnnnnnn", &[]);
    t.is(0, 2021);
    let before = t.below(0, 2021);
    let base = t.is_unless(1, 414, before, 413);
    let (long_before, less) = (t.below(0, 2020), t.number(411));
    t.except(base, 1, long_before, less);
    t.is(2, 1025);
    t.is(3, 132);
    t.is(4, 169);
    t.is(5, 5842);
    let (low, more) = (t.own(5), t.number(2044));
    let high = t.add(low, more);
    t.define(6, high);
    t.is(7, 588);
    t.0
}

/// The parents' income: 0 first, 1 second, 2 alimony paid, 3 alone, 4 total, 5 ceiling,
/// 6 low, 7 high, 8 share.
fn income() -> DraftScope {
    let mut t = Text::new("nnnynnyyn", &[]);
    t.is(0, 1800);
    t.is(1, 1400);
    t.is(2, 150);
    let unpaid = t.below(1, 1);
    t.rule(3, unpaid);
    let (first, second, paid) = (t.own(0), t.own(1), t.own(2));
    let sum = t.add(first, second);
    let total = t.subtract(sum, paid);
    t.define(4, total);
    t.is(5, 5842);
    let (total, ceiling) = (t.own(4), t.own(5));
    let low = t.less(total, ceiling);
    t.rule(6, low);
    let high = t.above(7886, 4);
    t.rule(7, high);
    let low = t.own(6);
    let share = t.is_unless(8, 2, low, 4);
    let (high, one) = (t.own(7), t.number(1));
    t.except(share, 8, high, one);
    t.0
}

/// The sum of a variable over the three children.
fn sum_over_children(t: &mut Text, variable: u8) -> u8 {
    let (a, b, c) = (t.of(0, variable), t.of(1, variable), t.of(2, variable));
    let pair = t.add(a, b);
    t.add(pair, c)
}

/// The family allowance: 0 children, 1 several, 2 large family, 3 basic, 4 for more,
/// 5 supplements, 6 before shares, 7 share, 8 quarters, 9 lost, 10 amount, 11 paid,
/// 12 overseas, 13 forfait. Sub-scopes: three children, the amounts, the income.
fn allowance() -> DraftScope {
    let mut t = Text::new("nyynnnnnnnnyyn", &[CHILD, CHILD, CHILD, AMOUNTS, INCOME]);
    for (child, variable, n) in [(0, 0, 17), (0, 1, 400), (1, 0, 14), (2, 0, 6)] {
        let value = t.number(n);
        t.hand(child, variable, value);
    }
    let ceiling = t.of(3, 5);
    t.hand(4, 5, ceiling);
    let children = sum_over_children(&mut t, 10);
    t.define(0, children);
    let two = t.above(1, 0);
    t.rule(1, two);
    let three = t.above(2, 0);
    t.rule(2, three);
    let (several, amount) = (t.own(1), t.of(3, 3));
    let basic = t.is(3, 0);
    t.except(basic, 3, several, amount);
    let (large, more, zero) = (t.own(2), t.of(3, 4), t.number(0));
    let rest = t.choose(large, more, zero);
    t.define(4, rest);
    let supplements = sum_over_children(&mut t, 9);
    t.define(5, supplements);
    let (basic, more, supplements) = (t.own(3), t.own(4), t.own(5));
    let some = t.add(basic, more);
    let all = t.add(some, supplements);
    t.define(6, all);
    let share = t.of(4, 8);
    t.define(7, share);
    let quarters = t.number(4);
    t.define(8, quarters);
    let (full, before) = (t.below(7, 4), t.own(6));
    let (whole, share) = (t.number(0), t.own(7));
    let cut = t.subtract(before, share);
    let lost = t.choose(full, cut, whole);
    t.define(9, lost);
    let (before, lost) = (t.own(6), t.own(9));
    let amount = t.subtract(before, lost);
    t.define(10, amount);
    let some = t.above(0, 10);
    t.rule(11, some);
    let abroad = t.below(0, 0);
    t.rule(12, abroad);
    t.is(13, 83);
    t.0
}

/// Grants: 0 births, 1 birth grant, 2 pupils, 3 school grant, 4 entitled, 5 reduced,
/// 6 sum, 7 floor, 8 paid out. Sub-scopes: the amounts, the income.
fn grants() -> DraftScope {
    let mut t = Text::new("nnnnyynnn", &[AMOUNTS, INCOME]);
    t.is(0, 1);
    let grant = t.amount_if_any(0, 947);
    t.define(1, grant);
    t.is(2, 2);
    let grant = t.amount_if_any(2, 370);
    t.define(3, grant);
    let low = t.of(1, 6);
    t.rule(4, low);
    let high = t.of(1, 7);
    t.rule(5, high);
    let (birth, school) = (t.own(1), t.own(3));
    let sum = t.add(birth, school);
    t.define(6, sum);
    t.is(7, 15);
    let (entitled, sum) = (t.own(4), t.own(6));
    let paid = t.is(8, 0);
    t.except(paid, 8, entitled, sum);
    t.0
}

/// A household: 0 first income, 1 second income, 2 year, 3 allowance, 4 grants, 5 sum,
/// 6 debts, 7 withheld, 8 net, 9 any, 10 monthly, 11 split. Sub-scopes: allowance, grants.
fn household() -> DraftScope {
    let mut t = Text::new("nnnnnnnnnyyn", &[ALLOWANCE, GRANTS]);
    t.is(0, 1900);
    t.is(1, 1500);
    t.is(2, 2021);
    let allowance = t.of(0, 10);
    t.define(3, allowance);
    let grants = t.of(1, 8);
    t.define(4, grants);
    let (allowance, grants) = (t.own(3), t.own(4));
    let sum = t.add(allowance, grants);
    t.define(5, sum);
    t.is(6, 120);
    let part = t.amount_if_any(6, 50);
    t.define(7, part);
    let (sum, withheld) = (t.own(5), t.own(7));
    let net = t.subtract(sum, withheld);
    t.define(8, net);
    let any = t.above(0, 8);
    t.rule(9, any);
    let little = t.below(8, 15);
    let monthly = t.rule(10, ALWAYS);
    t.except_rule(monthly, 10, little, 0);
    t.is(11, 1);
    t.0
}

/// A household under review: 0 to 5 whether each of three children is at school and in
/// care, 6 first and 7 second parent without pay, 8 alimony paid, 9 overseas, 10 a birth,
/// 11 debts; 12 children, 13 allowance, 14 grants, 15 withheld, 16 net, 17 any. Sub-scopes:
/// three children, the income, the allowance, the grants.
fn review() -> DraftScope {
    let called = [CHILD, CHILD, CHILD, INCOME, ALLOWANCE, GRANTS];
    let mut t = Text::new("yyyyyyyyyyyynnnnny", &called);
    for (child, age) in [(0, 17), (1, 14), (2, 6)] {
        let (age, school, care) = (t.number(age), t.own(2 * child), t.own(2 * child + 1));
        t.hand(child, 0, age);
        t.hand(child, 2, school);
        t.hand(child, 3, care);
    }
    for (variable, of, yes, no) in [(0, 6, 0, 1800), (1, 7, 0, 1400), (2, 8, 150, 0)] {
        let amount = t.amount_by(of, yes, no);
        t.hand(3, variable, amount);
    }
    let children = sum_over_children(&mut t, 10);
    t.define(12, children);
    let (children, share) = (t.own(12), t.of(3, 8));
    t.hand(4, 0, children);
    t.hand(4, 7, share);
    let (births, low) = (t.amount_by(10, 1, 0), t.of(3, 6));
    t.hand(5, 0, births);
    t.hand(5, 4, low);
    let (overseas, lump, amount) = (t.own(9), t.of(4, 13), t.of(4, 10));
    let allowance = t.choose(overseas, lump, amount);
    t.define(13, allowance);
    let grants = t.of(5, 8);
    t.define(14, grants);
    let withheld = t.amount_by(11, 50, 0);
    t.define(15, withheld);
    let (allowance, grants, withheld) = (t.own(13), t.own(14), t.own(15));
    let sum = t.add(allowance, grants);
    let net = t.subtract(sum, withheld);
    t.define(16, net);
    let any = t.above(0, 16);
    t.rule(17, any);
    t.0
}

fn scopes() -> Vec<DraftScope> {
    vec![
        child(),
        amounts(),
        income(),
        allowance(),
        grants(),
        household(),
    ]
}

/// The book of some scopes, which must have so many scopes, variables and clauses.
fn counted(scopes: Vec<DraftScope>, expected: [usize; 3]) -> Vec<u8> {
    let count = |of: fn(&DraftScope) -> usize| scopes.iter().map(of).sum::<usize>();
    let counts = [
        scopes.len(),
        count(|s| s.variables.len()),
        count(|s| s.clauses.len()),
    ];
    assert_eq!(counts, expected, "scopes, variables and clauses");
    Draft { scopes }.bytes()
}

/// The book. Asked for the household it ends in values, ten scopes entered.
pub fn book() -> Vec<u8> {
    let book = counted(scopes(), [6, 63, 83]);
    let answer = second::evaluate(&book, HOUSEHOLD, &[], &mut [0; 192]);
    let entered = answer.map(|answer| (answer.outcome, answer.count));
    assert_eq!(entered, Ok((Outcome::Values, 10)), "values, scopes entered");
    book
}

/// The book and the review. No scope of the book has twelve yes/no variables; the review
/// has, and hands what they say over to the others, so that 14 scopes are entered for
/// each row of their table.
pub fn reviewed() -> Vec<u8> {
    let mut scopes = scopes();
    scopes.push(review());
    let book = counted(scopes, [7, 81, 105]);
    let weight = second::weights_of(&book).map(|weights| weights[REVIEW]);
    assert_eq!(weight, Ok(14), "the review's weight");
    book
}
