//! What withdrawing 46 has met: lists, whose sheets it leaves as they were, and accounts that no list has.

use std::fmt::Write;

use crate::account::{Account, ACCOUNT};
use crate::book::Book;
use crate::call::{Call, Function, Inputs};
use crate::coverage::Scope;
use crate::facts::Facts;
use crate::former_list::{breaks_46, former_route, former_sheet};
use crate::gen::lengths::PAST_700_M;
use crate::order::{Order, ORDER};
use crate::route::granted;
use crate::rules::common_rule;
use crate::sheet::sheet;
use crate::tally::Tally;

/// Where alone a sheet may change: an account that no list has, with more than 700 m set to V in a length of at most 700 m.
fn may_change(inputs: &Inputs, facts: &Facts) -> bool {
    let of_account = matches!(inputs, Inputs::Engines { .. } | Inputs::AccountRoute { .. });
    let cross_border = Book::of(inputs.orders()) == Book::CrossBorder;
    of_account && cross_border && facts.hauled_length_v > 7_000 && facts.hauled_length <= 7_000
}

/// The order of a sheet, or those of a route's sections.
fn orders(inputs: &Inputs) -> Vec<Order> {
    let records = inputs.orders().as_chunks::<ORDER>().0.iter();
    records.filter_map(|record| Order::read(record)).collect()
}

/// Without 46 a call gives what it gave before, save for accounts that no list has.
pub fn is_as_before(call: &Call, answer: u64, written: &[u8]) -> bool {
    match &call.inputs {
        _ if !call.function().is_done(answer) => true,
        // The V length of a list is within its length, so that its account is none of those.
        Inputs::Portion { .. } => Account::read(&written[..ACCOUNT])
            .is_some_and(|account| account.length_v <= account.length),
        inputs => (inputs.facts()).is_none_or(|facts| is_kept(inputs, &facts)),
    }
}

/// The sheet, or a route with the sheet on each of its sections, is that of the former list; where it may change, 47 or no rule
/// stands in the place of 46, and what is granted follows.
fn is_kept(inputs: &Inputs, facts: &Facts) -> bool {
    let orders = orders(inputs);
    let mut sheets = orders
        .iter()
        .map(|order| [former_sheet(facts, order), sheet(facts, order)]);
    match may_change(inputs, facts) {
        true => sheets.all(|[old, new]| without_46(old, &new) == new),
        false => {
            sheets.all(|[old, new]| old == new)
                && former_route(facts, &orders) == granted(facts, &orders)
        }
    }
}

/// The old sheet with what the new one grants, and with what it has for 46.
fn without_46(mut old: Vec<u8>, new: &[u8]) -> Vec<u8> {
    old[1..3].copy_from_slice(&new[1..3]);
    for (old, &new) in old[4..7].iter_mut().zip(&new[4..7]) {
        if *old == 46 && [0, 47].contains(&new) {
            *old = new;
        }
    }
    old
}

#[derive(Clone, Copy, Debug, PartialEq, Eq, PartialOrd, Ord)]
enum Met {
    /// Vehicles set to V, within the hauled length, break 46: this common rule comes before it.
    Before(u8),
    /// No common rule is broken, and in a length of at most 700 m the V length stands so far above 700 m.
    About(i64),
    /// 46 stood first against this category: now this rule does, or 0.
    Instead(u8, u8),
    /// Another category is granted where this one is asked.
    Granted(u8),
}

fn demanded(function: Function) -> Vec<Met> {
    let before = PAST_700_M.map(Met::Before);
    let granted = (1..=3).map(Met::Granted);
    match function {
        Function::SheetOfTrain | Function::RouteOfTrain => before.to_vec(),
        Function::SheetOfAccount => {
            let about = [-1, 0, 1].map(Met::About);
            let instead = (1..=3).flat_map(|one| [0, 47].map(|rule| Met::Instead(one, rule)));
            let shown = about.into_iter().chain(instead).chain(granted);
            before.into_iter().chain(shown).collect()
        }
        Function::RouteOfAccount => before.into_iter().chain(granted).collect(),
        _ => vec![],
    }
}

impl Met {
    fn kind(self) -> String {
        let kind = match self {
            Met::Before(_) => "V length above 7,000 in the length, by the first common rule",
            Met::About(_) => "V length about 7,000 in a length of at most 7,000",
            Met::Instead(_, 0) => "no rule where 46 stood, by category",
            Met::Instead(..) => "47 where 46 stood, by category",
            Met::Granted(_) => "granted another than under the former list, by the asked one",
        };
        kind.to_owned()
    }
}

#[derive(Clone, Default)]
pub struct Withdrawal {
    tally: Tally<Met>,
}

impl Withdrawal {
    /// Of a call that is not refused; the domestic book never had 46.
    pub fn note(&mut self, call: &Call, facts: &Facts) {
        let (function, inputs) = (call.function(), &call.inputs);
        if Book::of(inputs.orders()) == Book::Domestic {
            return;
        }
        let common = common_rule(facts);
        let (length, length_v) = (facts.hauled_length, facts.hauled_length_v);
        if length_v <= length && breaks_46(facts) {
            self.tally.met(function, Met::Before(common));
        }
        if length <= 7_000 && common == 0 {
            let above = i64::from(length_v) - 7_000;
            if above.abs() <= 1 {
                self.tally.met(function, Met::About(above));
            }
        }
        if may_change(inputs, facts) {
            self.note_change(function, facts, &orders(inputs));
        }
    }

    fn note_change(&mut self, function: Function, facts: &Facts, orders: &[Order]) {
        for order in orders {
            let (old, new) = (former_sheet(facts, order), sheet(facts, order));
            for (category, (&was, &is)) in (1..).zip(old[4..9].iter().zip(&new[4..9])) {
                if was == 46 {
                    self.tally.met(function, Met::Instead(category, is));
                }
            }
        }
        if former_route(facts, orders).category != granted(facts, orders).category {
            self.tally.met(function, Met::Granted(orders[0].asked));
        }
    }

    pub fn add(&mut self, other: &Withdrawal) {
        self.tally.add(&other.tally);
    }

    pub fn missing(&self, scope: Scope) -> Vec<String> {
        let missing = self.tally.missing(scope, demanded).into_iter();
        let text =
            |(function, met): (Function, Met)| format!("{} without 46: {met:?}", function.name());
        missing.map(text).collect()
    }

    /// For each kind how often each came.
    pub fn table(&self, scope: Scope) -> String {
        let mut text = String::from("46 withdrawn\n");
        for (function, kind, counts) in self.tally.kinds(scope, demanded, Met::kind) {
            let counts: Vec<String> = counts.iter().map(u64::to_string).collect();
            let name = function.name();
            let _ = writeln!(text, "  {name:<16} {kind:<63} {}", counts.join(" "));
        }
        text
    }
}

#[cfg(test)]
mod tests {
    use super::*;
    use crate::gen::accounts::account_of;
    use crate::gen::cases::case_a;

    #[test]
    fn a_sheet_may_change_where_no_list_is() {
        let draft = case_a();
        let lengths = [
            (7_000, 7_000, [true, true]),
            (7_001, 7_000, [false, true]),
            (7_001, 7_001, [true, true]),
        ];
        for (hauled_length_v, hauled_length, kept) in lengths {
            let facts = Facts {
                hauled_length_v,
                hauled_length,
                ..draft.facts()
            };
            let hauled = account_of(&draft.hauled).to_vec();
            let both = [draft.of_train(), draft.of_account(hauled)];
            let found = both.map(|inputs| is_kept(&inputs, &facts));
            assert_eq!(found, kept, "{hauled_length_v} in {hauled_length}");
        }
    }

    #[test]
    fn nothing_else_may_change() {
        let new = sheet(&case_a().facts(), &case_a().order);
        for byte in 0..new.len() {
            let mut old = new.clone();
            old[byte] = 46;
            let may = [1, 2, 4, 5, 6].contains(&byte);
            assert_eq!(without_46(old, &new) == new, may, "{byte}");
        }
        let old = vec![46; 32];
        assert_eq!(without_46(old, &[45; 32])[4..7], [46; 3]);
    }

    #[test]
    fn what_is_not_met_is_missing() {
        let missing = Withdrawal::default().missing(Scope::Functions);
        assert_eq!(missing.len(), 8 + 8 + (8 + 3 + 6 + 3) + (8 + 3));
    }
}
