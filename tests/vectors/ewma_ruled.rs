// What follows is appended to a copy of `ewma.rs` in which `sed` puts `rule_powi` for `powi`.

#[allow(dead_code)]
#[path = "RULES_RS"]
mod rules;

trait RulePower {
    fn rule_powi(self, n: i32) -> f64;
}

impl RulePower for f64 {
    /// By the rule of docs/RULES.md. A chart asks for no negative exponent.
    fn rule_powi(self, n: i32) -> f64 {
        rules::powi(self, n.try_into().expect("an exponent from 0 up"))
    }
}
