//! What `compare` is asked for.

use crate::wire::Function;

pub const HELP: &str = "\
usage: compare [ARGUMENT VALUE]..

Runs the proved functions and the plain ones on the same generated cases, and
stops at the first difference.

  --seed N                   another run of cases; else 1
  --count N                  so many cases of each function; else 10,000
  --from N                   the first case's number; else 0
  --only NAME                this function alone: well_formed, judge, judge_known,
                             overlap, page, read, fill, name, list or find;
                             else all
  --need NAME,NAME           fail if one of these is not there
  --bridge COMMAND           the command that runs the bridge; else the environment
                             variable DOVETENON_BRIDGE, or target/bridge/run
  --help                     print this

The status is 0 when all that was compared is equal; 1 for a difference, a needed
function that is missing, or nothing to compare; 2 for wrong arguments or no bridge.
";

#[derive(Clone, Debug, PartialEq, Eq)]
pub struct Options {
    pub seed: u64,
    pub count: u64,
    /// The first case.
    pub from: u64,
    pub only: Option<String>,
    /// Functions without which nothing is compared.
    pub need: Vec<String>,
    /// The command that runs the bridge, if not the usual one.
    pub bridge: Option<String>,
}

impl Default for Options {
    fn default() -> Options {
        Options {
            seed: 1,
            count: 10_000,
            from: 0,
            only: None,
            need: Vec::new(),
            bridge: None,
        }
    }
}

impl Options {
    pub fn of(arguments: &[String]) -> Result<Options, String> {
        let mut options = Options::default();
        let mut left = arguments.iter();
        while let Some(name) = left.next() {
            let value = left.next().ok_or(format!("{name} needs a value"))?;
            let number = || value.parse().map_err(|_| format!("{value} is no number"));
            match name.as_str() {
                "--seed" => options.seed = number()?,
                "--count" => options.count = number()?,
                "--from" => options.from = number()?,
                "--only" => options.only = Some(known(value)?),
                "--need" => {
                    options.need = value.split(',').map(known).collect::<Result<_, _>>()?;
                }
                "--bridge" => options.bridge = Some(value.clone()),
                _ => return Err(format!("{name} is unknown")),
            }
        }
        Ok(options)
    }
}

/// The name of a function.
fn known(name: &str) -> Result<String, String> {
    let names = Function::ALL.map(Function::name);
    match names.contains(&name) {
        true => Ok(name.to_string()),
        false => Err(format!("{name} is none of: {}", names.join(", "))),
    }
}
