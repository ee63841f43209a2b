//! The printed table of what was met.

#[derive(Default)]
pub struct Table {
    pub text: String,
    pub missing: Vec<String>,
}

impl Table {
    pub fn title(&mut self, words: &str, unit: &str) {
        self.text += &format!("\n{words:<62}{unit:>12}\n");
    }

    pub fn row(&mut self, words: &str, count: u64) {
        self.text += &format!("{words:<62}{count:>12}\n");
        self.must_be_met(words, count);
    }

    pub fn must_be_met(&mut self, words: &str, count: u64) {
        if count == 0 {
            self.missing.push(words.to_string());
        }
    }
}
