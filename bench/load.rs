//! The load cell in turn, in plain Rust, to compare with `load N` of the program. Four tasks of stack code, with a few operations, ask
//! a cell in the same process for the same things in the same order, and the cell keeps the history. It prints the lines that `load N`
//! prints, and then seconds. It knows only as much of the language as this cell needs: no files, names or types, no signals, zones,
//! interrupts, waits, calls or ERROR parts. None of it is proved. Its operands, requests, answers and events are as large as the
//! program's.
use std::io::{self, BufWriter, Write};
use std::mem::size_of;
use std::time::Instant;

/// A number of thousandths.
type Num = i64;
type Joints = [Num; 12];
/// How a task ends, in the words of its line.
type Fate = &'static str;

const MOST: Num = 9_999_999_999_999;
const ABSENT: Num = 9_000_000_000_000;
const REACH: Num = 720_000;
const TASKS: usize = 4;

/// What a persistent has.
#[derive(Clone)]
#[allow(dead_code)]
enum Value { Num(Num), Bool(bool), Target(Joints), Speed([Num; 4]) }

/// An operand, or a datum of the module.
#[derive(Clone)]
#[allow(dead_code)]
enum Datum { Plain(Value), Shape([Num; 38]) }

#[allow(dead_code)]
enum Request { Look, ReadP(usize), WriteP(usize, Value), Position, Setpoint(Joints), ZoneSet([Num; 39]), End(Fate) }

/// `Go` has the number of changes that others have made.
#[derive(Clone)]
#[allow(dead_code)]
enum Answer { Ok, Go(u32), Val(Value), At(Joints), Given }

#[allow(dead_code)]
struct Event { actor: u32, request: Request, answer: Answer }

const _: () = assert!(size_of::<Datum>() == 312 && size_of::<Request>() == 320 && size_of::<Event>() == 432);

struct Cell { pers: Vec<Value>, arms: [Joints; TASKS], changes: u32, own: [u32; TASKS], steps: usize, counted: usize, history: Vec<Event> }

impl Cell {
    /// Answers a task's request, and keeps both; none if no steps are left, except to End.
    fn serve(&mut self, task: usize, request: Request) -> Option<Answer> {
        if !matches!(request, Request::End(_)) {
            if self.counted >= self.steps {
                return None;
            }
            self.counted += 1;
        }
        let answer = match &request {
            Request::Look => Answer::Go(self.changes - self.own[task]),
            Request::ReadP(pers) => Answer::Val(self.pers[*pers].clone()),
            Request::WriteP(pers, value) => {
                if num_in(&self.pers[*pers]) != num_in(value) {
                    (self.changes, self.own[task]) = (self.changes + 1, self.own[task] + 1);
                }
                self.pers[*pers] = value.clone();
                Answer::Ok
            }
            Request::Position => Answer::At(self.arms[task]),
            Request::Setpoint(to) => {
                self.arms[task] = *to;
                Answer::Given
            }
            Request::ZoneSet(_) => misfit(),
            Request::End(_) => Answer::Ok,
        };
        self.history.push(Event { actor: task as u32, request, answer: answer.clone() });
        Some(answer)
    }
}

#[derive(Clone, Copy)]
enum Sign { Add, Mul, Mod }

/// Slots are the data of the module; the variable of the FOR, its last value and its step are three of them.
#[derive(Clone, Copy)]
enum Op {
    Look,
    Push(Num),
    Load(usize),
    Store(usize),
    /// Puts a num into the first axis of a target.
    StoreAxis(usize),
    ReadPers(usize),
    WritePers(usize),
    Binary(Sign),
    /// Goes to the operation if the variable is past the last value.
    LeaveFor(usize),
    /// Adds the step, and goes to the operation unless the sum is past the range of num.
    Turn(usize),
    /// Moves to a target, by at most so many thousandths of a degree a setpoint.
    Move(usize, Num),
    Back,
}

/// A move under way: its target, and how many setpoints it has, of which some were asked. There is a Look between two setpoints.
struct Plan { start: Joints, target: Joints, count: Num, asked: Num, looked: bool }

struct Task { code: Vec<Op>, pc: usize, operands: Vec<Datum>, slots: Vec<Datum>, plan: Option<Plan>, seen: u32, fate: Option<Fate> }

impl Task {
    /// The next request, after the answer to the one before.
    fn next(&mut self, answer: Option<Answer>) -> Request {
        match answer {
            Some(Answer::Go(seen)) => self.seen = seen,
            Some(Answer::Val(value)) => self.operands.push(Datum::Plain(value)),
            Some(Answer::At(start)) => match self.begin(start) {
                Ok(plan) => self.plan = Some(plan),
                Err(fate) => return Request::End(fate),
            },
            _ => {}
        }
        if let Some(plan) = &mut self.plan {
            if plan.asked < plan.count {
                plan.looked = !plan.looked;
                if !plan.looked {
                    return Request::Look;
                }
                plan.asked += 1;
                return Request::Setpoint(setpoint(plan));
            }
            self.plan = None;
        }
        self.run().unwrap_or_else(Request::End)
    }

    /// Goes on to the next request, or to a fault.
    fn run(&mut self) -> Result<Request, Fate> {
        loop {
            let op = self.code[self.pc];
            self.pc += 1;
            match op {
                Op::Look => return Ok(Request::Look),
                Op::Push(number) => self.operands.push(plain(number)),
                Op::Load(slot) => self.operands.push(self.slots[slot].clone()),
                Op::Store(slot) => self.slots[slot] = self.pop(),
                Op::StoreAxis(slot) => {
                    let number = num_of(&self.pop());
                    target_mut(&mut self.slots[slot])[0] = number;
                }
                Op::ReadPers(pers) => return Ok(Request::ReadP(pers)),
                Op::WritePers(pers) => return Ok(Request::WriteP(pers, Value::Num(num_of(&self.pop())))),
                Op::Binary(sign) => {
                    let (right, left) = (num_of(&self.pop()), num_of(&self.pop()));
                    self.operands.push(plain(apply(sign, left, right)?));
                }
                Op::LeaveFor(to) => {
                    let [at, last, step] = [0, 1, 2].map(|k| num_of(&self.slots[k]));
                    if if step < 0 { at < last } else { last < at } {
                        self.pc = to;
                    }
                }
                Op::Turn(to) => {
                    let next = num_of(&self.slots[0]) + num_of(&self.slots[2]);
                    if next.abs() <= MOST {
                        self.slots[0] = plain(next);
                        self.pc = to;
                    }
                }
                Op::Move(..) => return Ok(Request::Position),
                Op::Back => return Ok(Request::End("Done")),
            }
        }
    }

    fn pop(&mut self) -> Datum {
        self.operands.pop().unwrap()
    }

    /// The plan of the move whose position was asked last.
    fn begin(&mut self, start: Joints) -> Result<Plan, Fate> {
        let Op::Move(slot, speed) = self.code[self.pc - 1] else { misfit() };
        let target = *target_mut(&mut self.slots[slot]);
        if target[..6].iter().any(|it| it.abs() > REACH) {
            return Err("Fault JointRange");
        }
        if speed <= 0 {
            return Err("Fault Speed");
        }
        let change = (0..6).map(|k| (target[k] - start[k]).abs()).max().unwrap();
        let cap = (speed / 1000).max(1);
        Ok(Plan { start, target, count: ((change + cap - 1) / cap).max(1), asked: 0, looked: false })
    }
}

/// The setpoint that was asked last: each axis at its part of the way.
fn setpoint(plan: &Plan) -> Joints {
    let mut to = plan.start;
    for k in 0..6 {
        let way = i128::from(plan.target[k] - plan.start[k]);
        to[k] += rounded_ratio(way * i128::from(plan.asked), i128::from(plan.count)) as Num;
    }
    to
}

/// Neither code of the load cell nor an answer that fits its request gets here.
fn misfit() -> ! {
    unreachable!("an operand or an answer does not fit")
}

fn plain(number: Num) -> Datum {
    Datum::Plain(Value::Num(number))
}

fn num_in(value: &Value) -> Num {
    let Value::Num(number) = value else { misfit() };
    *number
}

fn num_of(datum: &Datum) -> Num {
    let Datum::Plain(value) = datum else { misfit() };
    num_in(value)
}

fn target_mut(datum: &mut Datum) -> &mut Joints {
    let Datum::Plain(Value::Target(target)) = datum else { misfit() };
    target
}

fn apply(sign: Sign, left: Num, right: Num) -> Result<Num, Fate> {
    let (a, b) = (i128::from(left), i128::from(right));
    let count = match sign {
        Sign::Add => a + b,
        Sign::Mul => rounded_ratio(a * b, 1000),
        Sign::Mod if b == 0 => return Err("Fault Unhandled 101"),
        Sign::Mod => i128::from(left % right),
    };
    if count.abs() > i128::from(MOST) { Err("Fault NumRange") } else { Ok(count as Num) }
}

/// The integer nearest to a quotient, halves away from zero.
fn rounded_ratio(top: i128, bottom: i128) -> i128 {
    (2 * top.abs() + bottom) / (2 * bottom) * top.signum()
}

/// The code of a task:
/// `FOR i FROM 1 TO moves DO j.robax.rax_1 := (i * 37 + k * 11) MOD 90; MoveAbsJ j\NoEOffs, v1000, fine, tool0; total := total + 1; ENDFOR`
fn code_of(moves: Num, k: Num) -> Vec<Op> {
    use Op::*;
    let head = [Look, Push(1000), Store(0), Push(moves * 1000), Store(1), Push(1000), Store(2)];
    let angle = [Load(0), Push(37_000), Binary(Sign::Mul), Push(k * 1000), Push(11_000), Binary(Sign::Mul), Binary(Sign::Add)];
    let counted = [Look, ReadPers(0), Push(1000), Binary(Sign::Add), WritePers(0)];
    let mut code = head.to_vec();
    let turn = code.len();
    code.extend([LeaveFor(0), Look, Look]);
    code.extend(angle);
    code.extend([Push(90_000), Binary(Sign::Mod), StoreAxis(3), Look, Move(3, 1_000_000)]);
    code.extend(counted);
    code.push(Turn(turn));
    code[turn] = LeaveFor(code.len());
    code.push(Back);
    code
}

fn arm_at(axes: [Num; 6]) -> Joints {
    std::array::from_fn(|k| if k < 6 { axes[k] } else { ABSENT })
}

fn task_of(moves: Num, k: Num) -> Task {
    let place = Datum::Plain(Value::Target(arm_at([0; 6])));
    let slots = vec![plain(0), plain(0), plain(0), place];
    Task { code: code_of(moves, k), pc: 0, operands: Vec::with_capacity(8), slots, plan: None, seen: 0, fate: None }
}

/// Lets the tasks take turns until none has one.
fn by_turns(cell: &mut Cell, tasks: &mut [Task]) {
    let mut answers: Vec<Option<Answer>> = tasks.iter().map(|_| None).collect();
    loop {
        let before = cell.history.len();
        for (k, task) in tasks.iter_mut().enumerate() {
            if task.fate.is_some() {
                continue;
            }
            let request = task.next(answers[k].take());
            if let Request::End(fate) = request {
                task.fate = Some(fate);
            }
            answers[k] = cell.serve(k, request);
            if answers[k].is_none() {
                task.fate = Some("Cut");
            }
        }
        if cell.history.len() == before {
            return;
        }
    }
}

fn main() -> io::Result<()> {
    let moves: Num = std::env::args().nth(1).and_then(|it| it.parse().ok()).expect("how often each task moves");
    let begun = Instant::now();
    let steps = 500 * moves as usize + 500;
    let mut tasks: Vec<Task> = (1..=TASKS as Num).map(|k| task_of(moves, k)).collect();
    let history = Vec::with_capacity(steps + TASKS);
    let mut cell =
        Cell { pers: vec![Value::Num(0)], arms: [arm_at([0; 6]); TASKS], changes: 0, own: [0; TASKS], steps, counted: 0, history };
    by_turns(&mut cell, &mut tasks);
    let given = cell.history.iter().filter(|it| matches!((&it.request, &it.answer), (Request::Setpoint(_), Answer::Given))).count();
    let mut out = BufWriter::new(io::stdout().lock());
    writeln!(out, "L events {}\nL setpoints {given}\nL total {}", cell.history.len(), num_in(&cell.pers[0]) / 1000)?;
    for (k, task) in tasks.iter().enumerate() {
        writeln!(out, "E L{} {}", k + 1, task.fate.unwrap_or("Held"))?;
    }
    writeln!(out, "{:.6} s", begun.elapsed().as_secs_f64())?;
    out.flush()
}
