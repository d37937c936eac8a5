//! The notes of a must-fail edit: the lines before its first `file:`, which `rt` passes over. The
//! page with the tables has a list of them.

/// Document 01's desks that must fail. Each has an edit.
pub const DESKS: [&str; 7] = [
    "accepts every pair",
    "judges set 0 and takes move 0 elsewhere",
    "right strategy, invented gain",
    "the same strategy always",
    "sends every file back",
    "a writer that touches no buffer",
    "says 18 before measuring",
];

/// Document 01's turns to bar. Each has an edit.
pub const TURNS: [&str; 4] = [
    "a set's worth only where the owner's plan reaches it",
    "one leaf kept for each pair of sequences",
    "the best move chosen node by node",
    "a set follows only sets of smaller number",
];

#[derive(Clone, Debug, Default, PartialEq, Eq)]
pub struct Notes {
    /// At least one.
    pub subjects: Vec<Subject>,
    /// Which of `DESKS` it is.
    pub desk: Option<String>,
    /// Which of `TURNS` it is.
    pub turn: Option<String>,
    /// What no longer holds, of a definition, a desk and a turn.
    pub fact: Option<String>,
}

/// What an edit makes wrong, with a remark on how.
#[derive(Clone, Debug, PartialEq, Eq)]
pub struct Subject {
    pub kind: Kind,
    pub name: String,
    pub remark: Option<String>,
}

#[derive(Clone, Copy, Debug, PartialEq, Eq)]
pub enum Kind {
    Code,
    Statement,
    Definition,
}

/// The notes of an edit, given as its text.
pub fn read(edit: &str) -> Result<Notes, String> {
    let mut notes = Notes::default();
    for line in edit.lines().take_while(|line| !line.starts_with("file: ")) {
        let note = line.split_once(": ");
        let (key, said) = note.ok_or(format!("no note: {line}"))?;
        notes.take(key, said)?;
    }
    notes.whole()?;
    Ok(notes)
}

impl Notes {
    pub fn has(&self, kind: Kind) -> bool {
        self.subjects.iter().any(|subject| subject.kind == kind)
    }

    fn take(&mut self, key: &str, said: &str) -> Result<(), String> {
        let place = match key {
            "code" => return self.add(Kind::Code, said),
            "statement" => return self.add(Kind::Statement, said),
            "definition" => return self.add(Kind::Definition, said),
            "remark" => {
                let subject = self.subjects.last_mut();
                &mut subject.ok_or("a remark under no other note")?.remark
            }
            "desk" => &mut self.desk,
            "turn" => &mut self.turn,
            "fact" => &mut self.fact,
            _ => return Err(format!("no note is called `{key}:`")),
        };
        match place.replace(said.to_string()) {
            None => Ok(()),
            Some(_) => Err(format!("`{key}:` twice")),
        }
    }

    fn add(&mut self, kind: Kind, name: &str) -> Result<(), String> {
        self.subjects.push(Subject {
            kind,
            name: name.to_string(),
            remark: None,
        });
        Ok(())
    }

    /// Nothing is missing, and nothing is said that no table shows.
    fn whole(&self) -> Result<(), String> {
        if self.subjects.is_empty() {
            return Err("no note `code:`, `statement:` or `definition:`".to_string());
        }
        known("desk", &self.desk, &DESKS)?;
        known("turn", &self.turn, &TURNS)?;
        let due = self.has(Kind::Definition) || self.desk.is_some() || self.turn.is_some();
        match &self.fact {
            None if due => Err("no note `fact:`".to_string()),
            Some(_) if !due => Err("a `fact:` that no table shows".to_string()),
            _ => Ok(()),
        }
    }
}

fn known(key: &str, said: &Option<String>, names: &[&str]) -> Result<(), String> {
    match said {
        Some(name) if !names.contains(&name.as_str()) => {
            Err(format!("document 01 names no such {key}: {name}"))
        }
        _ => Ok(()),
    }
}
