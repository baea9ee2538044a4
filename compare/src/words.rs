// The words of a command line: the works that they select and the numbers that they set. --help, and words that are wrong, end here.

// Names, each with a number.
type Numbers = [(&'static str, usize)];

pub struct Words {
    // the works that are selected, in this order
    pub works: Vec<&'static str>,
    numbers: Vec<(&'static str, usize)>,
}

impl Words {
    pub fn number(&self, name: &str) -> usize {
        let known = self.numbers.iter().find(|known| known.0 == name);
        known.expect("a name").1
    }

    // A work by its name, or NAME=NUMBER, which selects NAME if it is a work. None if the word is neither.
    fn take(&mut self, works: &Numbers, word: &str) -> Option<()> {
        let (name, number) = word.split_once('=').unzip();
        let name = name.unwrap_or(word);
        let work = works.iter().find(|work| work.0 == name);
        match number {
            Some(number) => {
                let known = self.numbers.iter_mut().find(|known| known.0 == name)?;
                known.1 = number.parse().ok()?;
            }
            None => _ = work?,
        }
        if let Some(&(work, _)) = work {
            if !self.works.contains(&work) {
                self.works.push(work);
            }
        }
        Some(())
    }
}

// Says what is wrong, and the first line of `usage`.
pub fn wrong(usage: &str, what: &str) -> ! {
    eprintln!("{what}");
    eprintln!("{} (--help tells more)", usage.lines().next().unwrap_or(""));
    std::process::exit(2)
}

// The command line, of these works and other names, with the numbers that they have if none are given.
pub fn asked(usage: &str, works: &Numbers, others: &Numbers) -> Words {
    let mut words = Words {
        works: Vec::new(),
        numbers: [works, others].concat(),
    };
    for word in std::env::args().skip(1) {
        if word == "--help" {
            print!("{usage}");
            std::process::exit(0);
        }
        if words.take(works, &word).is_none() {
            wrong(usage, &format!("{word}: not understood"));
        }
    }
    words
}
