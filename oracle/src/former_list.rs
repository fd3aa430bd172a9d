//! The list of rules as it was before request Five withdrew 46. It makes no sheet: what it would have said is for comparison alone.

use crate::book::{Book, RuleBook, CROSS_BORDER, DOMESTIC};
use crate::category::{begun_20_m, Category};
use crate::facts::Facts;
use crate::order::Order;
use crate::route::{granted_under, Route};
use crate::rules::category_rule;
use crate::sheet::sheet_under;

/// 46: the begun 20 m, before they are held at 10, are more than 10.
pub fn breaks_46(facts: &Facts) -> bool {
    begun_20_m(facts.hauled_length_v) > 10
}

/// The first rule that a category broke of its own, or 0: 1 to 3 asked 46 behind all others but 47.
fn former_rule(category: &Category, facts: &Facts, order: &Order) -> u8 {
    match category_rule(category, facts, order) {
        0 | 47 if category.is_1_to_3() && breaks_46(facts) => 46,
        rule => rule,
    }
}

/// The book as it was; the domestic one never had 46.
fn former(book: Book) -> RuleBook {
    match book {
        Book::CrossBorder => RuleBook {
            own: former_rule,
            ..CROSS_BORDER
        },
        Book::Domestic => DOMESTIC,
    }
}

pub fn former_sheet(facts: &Facts, order: &Order) -> Vec<u8> {
    sheet_under(&former(order.book), facts, order)
}

pub fn former_route(facts: &Facts, sections: &[Order]) -> Route {
    let book = sections.first().map_or(Book::CrossBorder, |one| one.book);
    granted_under(&former(book), facts, sections)
}

#[cfg(test)]
mod tests {
    use super::*;
    use crate::account::Account;
    use crate::gen::cases::case_a;
    use crate::gen::draft::{aim, bytes, LENGTH};
    use crate::line::hex;
    use crate::route::granted;
    use crate::sheet::sheet;

    /// Case A's engine with 150 t hauled, 100 t of V mass on 8 axles, and so many metres set to V in 150 m.
    fn light(length_v: u32) -> Facts {
        let draft = case_a();
        let account = Account {
            mass: 1_500,
            braked_v: 1_000,
            axles_v: 8,
            length_v,
            ..Account::of(bytes(&draft.hauled).as_chunks().0)
        };
        Facts::of_account(bytes(&draft.working).as_chunks().0, &account)
    }

    /// Q is 4 x 2,000, and 90 percent make 720,000, so 180.0 t. Category 1 needs 4 x 77 x 2,400 = 739,200: 19,200 are short,
    /// so -5 t; 2 and 3 need 576,000. In 4, which needs 547,200, and in 5 nothing is deducted from 800,000.
    #[test]
    fn an_account_that_no_list_has_is_judged_otherwise() {
        let order = case_a().order;
        let rest = "00fbffff4d0000dc0500006009000008070000a4060000";
        let old = format!("010464002e2e2e0000{rest}");
        let new = format!("010264002f00000000{rest}");
        assert_eq!(hex(&former_sheet(&light(7_000), &order)), new);
        assert_eq!(hex(&former_sheet(&light(7_001), &order)), old);
        assert_eq!(hex(&sheet(&light(7_001), &order)), new);
        let grants =
            [former_route, granted].map(|route| route(&light(7_001), &[order; 2]).category);
        assert_eq!(grants, [4, 2]);
    }

    #[test]
    fn a_train_breaks_22_before() {
        let mut draft = case_a();
        aim(&mut draft.hauled, LENGTH, 7_001);
        let facts = draft.facts();
        assert!(breaks_46(&facts));
        assert_eq!(former_sheet(&facts, &draft.order)[3..9], [22; 6]);
        assert_eq!(
            former_sheet(&facts, &draft.order),
            sheet(&facts, &draft.order)
        );
    }
}
