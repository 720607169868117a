//! What program `netplan` prints.

use super::{planner, text, Refusal};

/// The most bytes of the first line and the matrix text together.
const LONGEST: usize = 24_576;

/// The program's output for an input.
pub fn netplan(input: &[u8]) -> String {
    match answer(input) {
        Ok(plan) => print(&plan),
        Err(Refusal { number, place }) => format!("refused {number} {place}\n"),
    }
}

/// The plan, or the refusal: length, matrix text, first line, limits.
fn answer(input: &[u8]) -> Result<planner::Plan, Refusal> {
    if input.len() > LONGEST {
        return Err(Refusal::at(2, 0));
    }
    let end = input.iter().position(|&byte| byte == b'\n');
    let (line, rest) = match end {
        Some(end) => (&input[..end], &input[end + 1..]),
        None => (input, &input[..0]),
    };
    let matrix = text::read(rest)?;
    let bad_line = Refusal::at(7, 0);
    let (workers, p) = text::two_numbers(line).ok_or(bad_line)?;
    let workers = u32::try_from(workers).map_err(|_| bad_line)?;
    let p = u32::try_from(p).map_err(|_| bad_line)?;
    planner::judge_limits(workers, p, planner::DISTANCE)?;
    Ok(planner::plan(matrix.rows(), workers, p))
}

/// The lines of a plan.
pub fn print(plan: &planner::Plan) -> String {
    let mut out = String::from("order");
    for freedom in &plan.order {
        out += &format!(" {freedom}");
    }
    out += "\ngroup start length first workers colour parent depth\n";
    for (index, record) in plan.groups.iter().enumerate() {
        let fields = record.map(|field| format!(" {field}")).concat();
        out += &format!("{index}{fields}\n");
    }
    out
}
