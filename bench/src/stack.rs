//! How much stack a function of an archive takes, read off its machine code
//! (x86-64) as GNU objdump prints it: the deepest place of the function and of
//! all that it calls, the return address with it. Each way through a function
//! is followed, so that what one way gives back another does not count.

use std::collections::{BTreeSet, HashMap};
use std::process::Command;

/// What one function takes.
#[derive(Clone, PartialEq, Eq, Debug)]
pub struct Need {
    /// Bytes with the return address; none where there is no bound, since
    /// it calls through a pointer or takes a computed amount.
    pub bytes: Option<i64>,
    /// Functions outside the archive that it calls; what they take is not
    /// in the bytes, but for the return address.
    pub outside: BTreeSet<String>,
}

/// The stack of the named functions of an archive, of which one that calls
/// itself is so many frames deep at most.
pub fn read(archive: &str, names: &[&str], deep: usize) -> Result<Vec<Need>, String> {
    if !objdump(&["--version"])?.starts_with("GNU ") {
        return Err("objdump is not GNU objdump".to_string());
    }
    let mut code = Code::parse(&objdump(&["-d", "-r", "--no-show-raw-insn", archive])?);
    code.deep = deep;
    let need = |name: &&str| code.need(name).ok_or(format!("{archive} has no {name}"));
    names.iter().map(need).collect()
}

fn objdump(words: &[&str]) -> Result<String, String> {
    let output = Command::new("objdump").args(words).output();
    let output = output.map_err(|error| format!("objdump: {error}"))?;
    if output.status.success() {
        Ok(String::from_utf8_lossy(&output.stdout).into_owned())
    } else {
        Err(String::from_utf8_lossy(&output.stderr).into_owned())
    }
}

/// One instruction.
#[derive(Debug)]
struct Instruction {
    op: String,
    words: String,
    /// The name that the linker puts in, with what is added to it.
    link: Option<(String, i64)>,
    /// Numbers of the object, section and function that it stands in.
    object: usize,
    section: usize,
    function: usize,
}

/// All code of an archive, one instruction after the other.
#[derive(Default, Debug)]
struct Code {
    instructions: Vec<Instruction>,
    /// The instruction at a place of a section.
    places: HashMap<(usize, u64), usize>,
    objects: usize,
    /// The sections of each object, and all functions' starts, by name.
    sections: HashMap<(usize, String), usize>,
    functions: HashMap<String, (usize, u64)>,
    /// How many frames deep a function may call itself.
    deep: usize,
}

/// Where a call or a jump goes.
enum Target {
    /// To this instruction.
    Place(usize),
    /// To a function outside the archive.
    Outside(String),
    /// Through a pointer.
    Unknown,
}

/// What following a function finds.
#[derive(Default)]
struct Found {
    deepest: i64,
    unbounded: bool,
    /// Places that are called, with the depth at which they start.
    calls: Vec<(i64, usize)>,
    outside: BTreeSet<String>,
}

fn hexadecimal(text: &str) -> Option<u64> {
    let digits = text.strip_prefix("0x").unwrap_or(text);
    u64::from_str_radix(digits, 16).ok()
}

/// `name`, `name+0x8` or `name-0x4`.
fn name_and_sum(text: &str) -> (String, i64) {
    let cut = text.rfind("+0x").or_else(|| text.rfind("-0x"));
    let parts = cut.and_then(|cut| Some((cut, hexadecimal(&text[cut + 1..])? as i64)));
    match parts {
        Some((cut, sum)) if text[cut..].starts_with('-') => (text[..cut].to_string(), -sum),
        Some((cut, sum)) => (text[..cut].to_string(), sum),
        None => (text.to_string(), 0),
    }
}

/// Words before an instruction's own.
const BEFORE: [&str; 9] = [
    "bnd", "notrack", "lock", "rep", "repz", "repnz", "data16", "cs", "ds",
];
/// A depth that only a loop can come to.
const MOST: i64 = 1 << 20;

impl Code {
    fn parse(text: &str) -> Code {
        let mut code = Code::default();
        let (mut section, mut function) = (0, 0);
        for line in text.lines() {
            if line.contains(" file format ") {
                code.objects += 1;
            } else if let Some(name) = line.strip_prefix("Disassembly of section ") {
                section += 1;
                let name = name.trim_end_matches(':').to_string();
                code.sections.insert((code.objects, name), section);
            } else if let Some((at, name)) = label(line) {
                function += 1;
                code.functions.insert(name, (section, at));
            } else if let Some((at, rest)) = line.trim().split_once(':') {
                code.line(at, rest.trim(), section, function);
            }
        }
        code
    }

    /// An instruction, or what the linker does to the one before it.
    fn line(&mut self, at: &str, rest: &str, section: usize, function: usize) {
        let Some(at) = hexadecimal(at) else {
            return;
        };
        let mut words = rest.split_whitespace().peekable();
        while words.next_if(|word| BEFORE.contains(word)).is_some() {}
        let Some(op) = words.next() else {
            return;
        };
        let words = words.collect::<Vec<&str>>().join(" ");
        if op.starts_with("R_X86_64_") {
            self.link(op, &words);
            return;
        }
        self.places.insert((section, at), self.instructions.len());
        self.instructions.push(Instruction {
            op: op.to_string(),
            words,
            link: None,
            object: self.objects,
            section,
            function,
        });
    }

    fn link(&mut self, kind: &str, words: &str) {
        let Some(last) = self.instructions.last_mut() else {
            return;
        };
        last.link = Some(name_and_sum(words));
        if kind.contains("GOTPCREL") {
            // Through the linker's table: by name, all the same.
            last.words = last.words.trim_start_matches('*').to_string();
        }
    }

    /// Where a call or a jump goes. A linked sum is 4 less than the distance
    /// that it means.
    fn target(&self, instruction: &Instruction) -> Target {
        if instruction.words.starts_with('*') {
            return Target::Unknown;
        }
        let place = match &instruction.link {
            None => {
                let at = instruction.words.split(' ').next().and_then(hexadecimal);
                at.map(|at| (instruction.section, at))
            }
            Some((name, sum)) => {
                let section = self.sections.get(&(instruction.object, name.clone()));
                let start = section.map(|&section| (section, 0));
                let start = start.or_else(|| self.functions.get(name).copied());
                let Some((section, at)) = start else {
                    return Target::Outside(name.clone());
                };
                Some((section, at.wrapping_add_signed(sum + 4)))
            }
        };
        match place.and_then(|place| self.places.get(&place)) {
            Some(&place) => Target::Place(place),
            None => Target::Unknown,
        }
    }

    fn need(&self, name: &str) -> Option<Need> {
        let start = *self.places.get(self.functions.get(name)?)?;
        let mut outside = BTreeSet::new();
        let below = self.below(start, &mut Vec::new(), &mut outside);
        let bytes = below.map(|below| below + 8);
        Some(Need { bytes, outside })
    }

    /// The bytes below a function's return address.
    fn below(
        &self,
        start: usize,
        above: &mut Vec<usize>,
        outside: &mut BTreeSet<String>,
    ) -> Option<i64> {
        above.push(start);
        let found = self.follow(start);
        outside.extend(found.outside);
        let mut below = (!found.unbounded).then_some(found.deepest);
        let frames = |callee: &usize| above.iter().filter(|&above| above == callee).count();
        let calls = found.calls.into_iter();
        let calls: Vec<(i64, usize)> = calls
            .filter(|(_, callee)| frames(callee) < self.deep)
            .collect();
        for (depth, callee) in calls {
            let callee = self.below(callee, above, outside);
            below = below
                .zip(callee)
                .map(|(below, callee)| below.max(depth + callee));
        }
        above.pop();
        below
    }

    /// Follows every way from a function's start, also into another one that
    /// it ends by jumping to.
    fn follow(&self, start: usize) -> Found {
        let mut walk = Walk::default();
        let (depth, base) = (0, 0);
        walk.open.push(Way {
            place: start,
            depth,
            base,
        });
        while let Some(way) = walk.next(self) {
            let seen = walk.depths.get(&way.place);
            if seen.is_none_or(|&seen| seen < way.depth) {
                walk.depths.insert(way.place, way.depth);
                walk.turn(self, way);
            }
        }
        walk.found
    }

    /// The first instruction that nothing has reached, of the function that
    /// this one stands in.
    fn unseen(&self, place: usize, depths: &HashMap<usize, i64>) -> Option<usize> {
        let function = self.instructions[place].function;
        let same = |place: &usize| self.instructions[*place].function == function;
        let first = (0..=place).rev().take_while(same).last()?;
        let all = (first..self.instructions.len()).take_while(same);
        let mut left = all.filter(|place| !depths.contains_key(place));
        left.find(|&place| !self.instructions[place].fills())
    }
}

/// Where to go on from, with the depth there and the one that %rbp marks.
#[derive(Clone, Copy)]
struct Way {
    place: usize,
    depth: i64,
    base: i64,
}

/// A function that is being followed.
#[derive(Default)]
struct Walk {
    found: Found,
    /// The greatest depth at which each place was reached.
    depths: HashMap<usize, i64>,
    open: Vec<Way>,
    /// Jumps through a table, which go to places of the same function that
    /// nothing else reaches.
    tables: Vec<Way>,
}

impl Walk {
    fn next(&mut self, code: &Code) -> Option<Way> {
        if self.found.unbounded {
            return None;
        }
        self.open.pop().or_else(|| {
            let unseen = self.tables.iter().filter_map(|&table| {
                let place = code.unseen(table.place, &self.depths)?;
                Some(Way { place, ..table })
            });
            unseen.max_by_key(|way| way.depth)
        })
    }

    /// One instruction: how deep it reaches, and where the way goes on.
    fn turn(&mut self, code: &Code, way: Way) {
        let instruction = &code.instructions[way.place];
        let moved = instruction.moved(way.depth, way.base);
        let Some((depth, base)) = moved.filter(|_| way.depth < MOST) else {
            self.found.unbounded = true;
            return;
        };
        self.reach(way.depth + instruction.below_pointer());
        self.reach(depth);
        let op = instruction.op.as_str();
        if op == "call" {
            match code.target(instruction) {
                Target::Place(callee) => self.found.calls.push((depth + 8, callee)),
                Target::Outside(name) => self.leave(name, depth + 8),
                Target::Unknown => self.found.unbounded = true,
            }
        } else if op.starts_with('j') {
            let place = way.place;
            match code.target(instruction) {
                Target::Place(place) => self.open.push(Way { place, depth, base }),
                Target::Outside(name) => self.leave(name, depth),
                Target::Unknown => self.tables.push(Way { place, depth, base }),
            }
        }
        let place = way.place + 1;
        let next = code.instructions.get(place);
        let goes_on = next.is_some_and(|next| next.function == instruction.function);
        if goes_on && !matches!(op, "jmp" | "ret" | "ud2" | "hlt") {
            self.open.push(Way { place, depth, base });
        }
    }

    fn reach(&mut self, depth: i64) {
        self.found.deepest = self.found.deepest.max(depth);
    }

    fn leave(&mut self, name: String, depth: i64) {
        self.found.outside.insert(name);
        self.reach(depth);
    }
}

/// `0000000000000000 <name>:`
fn label(line: &str) -> Option<(u64, String)> {
    let (at, rest) = line.split_once(" <")?;
    let name = rest.strip_suffix(">:")?;
    Some((hexadecimal(at)?, name.to_string()))
}

impl Instruction {
    /// Whether it only fills up the place between two others.
    fn fills(&self) -> bool {
        self.op.starts_with("nop") || self.op == "int3" || self.op == "xchg"
    }

    /// How far below the stack pointer it reaches, for data kept there.
    fn below_pointer(&self) -> i64 {
        let Some((before, _)) = self.words.split_once("(%rsp") else {
            return 0;
        };
        let reach = before.rsplit([',', ' ', '*']).next().unwrap_or("");
        match reach.strip_prefix('-').and_then(hexadecimal) {
            Some(below) if self.op != "lea" || !self.words.ends_with(",%rsp") => below as i64,
            _ => 0,
        }
    }

    /// The depth after it, and the depth that %rbp marks; none where it
    /// moves the stack pointer by an amount that can't be read off.
    fn moved(&self, depth: i64, base: i64) -> Option<(i64, i64)> {
        let words = self.words.as_str();
        let number = |text: &str| hexadecimal(text).map(|number| number as i64);
        let given = || number(words.strip_prefix('$')?.strip_suffix(",%rsp")?);
        let after = match self.op.as_str() {
            "push" => depth + 8,
            "pop" if words == "%rsp" => return None,
            "pop" => depth - 8,
            "mov" if words == "%rsp,%rbp" => return Some((depth, depth)),
            "mov" if words == "%rbp,%rsp" => base,
            "leave" => base - 8,
            "cmp" | "test" => depth,
            _ if !words.ends_with(",%rsp") => depth,
            "sub" => depth + given()?,
            "add" => depth - given()?,
            // Rounded down to a multiple: at most so much more.
            "and" => depth - given()? - 8,
            "lea" => {
                let (reach, from) = words.strip_suffix(",%rsp")?.split_once('(')?;
                let reach = match reach.strip_prefix('-') {
                    Some(reach) => -number(reach)?,
                    None => number(reach)?,
                };
                match from {
                    "%rsp)" => depth - reach,
                    "%rbp)" => base - reach,
                    _ => return None,
                }
            }
            _ => return None,
        };
        Some((after, base))
    }
}

#[cfg(test)]
mod tests {
    use super::*;

    const TEXT: &str = "
x.o:     file format elf64-x86-64

Disassembly of section .text.leaf:

0000000000000000 <leaf>:
   0:\tmov    %edi,-0x14(%rsp)
   4:\tlea    -0x10(%rsp),%rax
   9:\tret

Disassembly of section .text.caller:

0000000000000000 <caller>:
   0:\ttest   %edi,%edi
   2:\tje     30 <caller+0x30>
   4:\tpush   %rbp
   5:\tsub    $0x48,%rsp
   9:\tcall   e <caller+0xe>
\t\t\ta: R_X86_64_PLT32\tleaf-0x4
   e:\tnotrack jmp *%rax
  10:\tcall   15 <caller+0x15>
\t\t\t11: R_X86_64_PLT32\tmemset-0x4
  15:\tadd    $0x48,%rsp
  19:\tpop    %rbp
  1a:\tjmp    1f <caller+0x1f>
\t\t\t1b: R_X86_64_PC32\t.text.leaf-0x4
  1f:\tcs nopw 0x0(%rax,%rax,1)
  30:\tret

Disassembly of section .text:

0000000000000000 <again>:
   0:\tpush   %rax
   1:\tcall   0 <again>
   6:\tret

0000000000000010 <framed>:
  10:\tpush   %rbp
  11:\tmov    %rsp,%rbp
  14:\tpush   %rbx
  15:\tand    $0xffffffffffffffe0,%rsp
  19:\tadd    $0xffffffffffffff80,%rsp
  1d:\tlea    -0x8(%rbp),%rsp
  21:\tpop    %rbx
  22:\tpop    %rbp
  23:\tret

0000000000000030 <grown>:
  30:\tsub    %rax,%rsp
  33:\tret

0000000000000040 <through>:
  40:\tcall   *%rax
  42:\tret
";

    fn need(name: &str) -> (Option<i64>, Vec<String>) {
        let mut code = Code::parse(TEXT);
        code.deep = 3;
        let need = code.need(name).expect("it is there");
        (need.bytes, need.outside.into_iter().collect())
    }

    #[test]
    fn what_each_takes() {
        assert_eq!(need("leaf"), (Some(8 + 20), vec![]));
        let outside = vec!["memset".to_string()];
        assert_eq!(need("caller"), (Some(8 + 8 + 72 + 28), outside));
        assert_eq!(need("framed"), (Some(8 + 8 + 8 + 24 + 128), vec![]));
        assert_eq!(need("again"), (Some(3 * (8 + 8)), vec![]));
        for unbounded in ["grown", "through"] {
            assert_eq!(need(unbounded), (None, vec![]));
        }
        assert_eq!(Code::parse(TEXT).need("none"), None);
    }
}
