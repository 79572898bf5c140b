//! What ./explain says of a loop's verdict: which turns decided, what it went through if there
//! was none, and where to see what many turns read.

#[path = "common/told.rs"]
mod told;

use told::says;

/// Three objects with a number each, the first of them with an empty Sequence too.
const SHEET: &str =
    "C 0 -|A 0 0 5 Int|A 1 0 6 Q(Int)|O 0 0|O 1 0|O 2 0|V 0 0 1|V 0 1 Q()|V 1 0 2|V 2 0 3|R 0 0|";

#[test]
fn a_loop_without_turns_leads_to_what_it_goes_through() {
    says(
        &format!("{SHEET}X self.a6->exists(v1 ¦ v1 = 9)"),
        &[
            "by none of its members (0)\n",
            "`self.a6` is Q(), by line 8: V 0 1 Q()\n",
            "  look at  line 8: V 0 1 Q().\n",
        ],
    );
    says(
        &format!("{SHEET}X self.a6->iter(v1; v2 : Int = self.a5 ¦ v1) = 4"),
        &[
            "in 0 turns\n",
            "  look at  line 8: V 0 1 Q(); line 7: V 0 0 1.\n",
        ],
    );
}

#[test]
fn a_loop_of_many_turns_leads_to_its_steps() {
    says(
        &format!("{SHEET}X #0.allInstances()->exists(v1 ¦ v1.a5 = 9)"),
        &[
            "by none of its members (3)\n",
            "  look at  what the turns read, step by step: ./explain SHEET 0 0.\n",
        ],
    );
}

#[test]
fn a_loop_of_few_turns_has_what_they_read() {
    says(
        &format!("{SHEET}X Set{{1, 2}}->exists(v1 ¦ v1 = self.a5 + 9)"),
        &[
            "by none of its members (2)\n",
            "  look at  line 7: V 0 0 1.\n",
        ],
    );
}
