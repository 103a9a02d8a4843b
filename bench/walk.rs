//! A walk over the syntax trees of four cells of `bench/run` in plain Rust, to compare with the program: a FOR over a VAR, a FOR over
//! a PERS, 31 nested routines, 100,000 setpoints. The task asks a cell in the same process for the same things in the same order, as
//! `docs/MEANING.md` says of these forms, and the cell keeps the history. It prints the lines that `round` prints, then how many
//! events were counted, and seconds. It knows only as much of the language as the four cells need: no files, names or types, one
//! task, no signals, zones, interrupts, waits or ERROR parts. None of it is proved. Its values are small; built with `--cfg wide`
//! they are as large as the program's, and so are requests, answers and events; with `--cfg lines` each line is a write of its own.
use std::fs::File;
use std::io::{self, BufWriter, Write};
use std::time::Instant;

/// A number of thousandths.
type Num = i64;
type Joints = [Num; 12];
/// How a task ends, in the words of its line.
type Fate = &'static str;

const MOST: Num = 9_999_999_999_999;
const ABSENT: Num = 9_000_000_000_000;
const REACH: Num = 720_000;
const ZERO: Value = Value::Num(0);

#[derive(Clone)]
#[allow(dead_code)]
enum Value { Num(Num), Bool(bool), Target(Box<Joints>), Speed(Box<[Num; 4]>), #[cfg(wide)] Wide([Num; 38]) }

/// A datum of the module; one of the routine, parameters first; a persistent.
#[derive(Clone, Copy)]
enum Place { Slot(usize), Local(usize), Pers(usize) }

#[derive(Clone, Copy)]
enum Op { Add, Sub, Mul, Mod, Greater }

enum Expr { Known(Value), At(Place), Pair(Op, Box<Expr>, Box<Expr>) }

/// An IF is one without THEN. A FOR has no STEP; its variable, last value and step are three data of the routine, from this
/// one on.
enum Stmt {
    Assign(Place, Expr),
    Call(usize, Vec<Expr>),
    If(Expr, Box<Stmt>),
    For(usize, Expr, Expr, Vec<Stmt>),
    MoveAbsJ(Expr, Expr),
}

/// How many data a routine has after its parameters, and its list.
struct Routine(usize, Vec<Stmt>);

#[allow(dead_code)]
enum Request { Look, ReadP(usize), WriteP(usize, Value), Position, Setpoint(Box<Joints>), End(Fate) }

/// `Go` has the number of changes that others have made. The persistent here is a num.
#[derive(Clone)]
#[allow(dead_code)]
enum Answer { Ok, Go(u32), Val(Num), At(Box<Joints>), Given, #[cfg(wide)] Wide([Num; 12]) }

#[allow(dead_code)]
struct Event { actor: u32, request: Request, answer: Answer }

struct Cell { pers: Vec<Num>, arm: Joints, steps: usize, history: Vec<Event> }

impl Cell {
    /// Answers the request, and keeps both. If no steps are left, only End is answered.
    fn ask(&mut self, request: Request) -> Result<Answer, Fate> {
        if self.history.len() >= self.steps && !matches!(request, Request::End(_)) {
            return Err("Cut");
        }
        let mut answer = Answer::Ok;
        match &request {
            Request::Look => answer = Answer::Go(0),
            Request::ReadP(pers) => answer = Answer::Val(self.pers[*pers]),
            Request::WriteP(pers, value) => self.pers[*pers] = num_in(value.clone()),
            Request::Position => answer = Answer::At(Box::new(self.arm)),
            Request::Setpoint(to) => (self.arm, answer) = (**to, Answer::Given),
            Request::End(_) => {}
        }
        self.history.push(Event { actor: 0, request, answer: answer.clone() });
        Ok(answer)
    }
}

/// The data of an active routine, and the answer to its last Look, for a wait.
#[allow(dead_code)]
struct Frame { values: Vec<Value>, seen: u32 }

/// A task whose `main` is the first of its routines.
struct Task<'t> { routines: &'t [Routine], cell: Cell, slots: Vec<Value>, frames: Vec<Frame> }

impl<'t> Task<'t> {
    fn look(&mut self) -> Result<(), Fate> {
        let Answer::Go(seen) = self.cell.ask(Request::Look)? else { misfit() };
        self.frame().seen = seen;
        Ok(())
    }

    fn frame(&mut self) -> &mut Frame {
        self.frames.last_mut().unwrap()
    }

    fn load(&mut self, place: Place) -> Result<Value, Fate> {
        Ok(match place {
            Place::Slot(row) => self.slots[row].clone(),
            Place::Local(row) => self.frame().values[row].clone(),
            Place::Pers(row) => match self.cell.ask(Request::ReadP(row))? {
                Answer::Val(number) => Value::Num(number),
                _ => misfit(),
            },
        })
    }

    fn store(&mut self, place: Place, value: Value) -> Result<(), Fate> {
        match place {
            Place::Slot(row) => self.slots[row] = value,
            Place::Local(row) => self.frame().values[row] = value,
            Place::Pers(row) => {
                self.cell.ask(Request::WriteP(row, value))?;
            }
        }
        Ok(())
    }

    fn expr(&mut self, expr: &Expr) -> Result<Value, Fate> {
        match expr {
            Expr::Known(value) => Ok(value.clone()),
            Expr::At(place) => self.load(*place),
            Expr::Pair(op, left, right) => apply(*op, self.num(left)?, self.num(right)?),
        }
    }

    fn num(&mut self, expr: &Expr) -> Result<Num, Fate> {
        self.expr(expr).map(num_in)
    }

    fn stmt(&mut self, stmt: &'t Stmt) -> Result<(), Fate> {
        self.look()?;
        match stmt {
            Stmt::Assign(place, expr) => {
                let value = self.expr(expr)?;
                self.store(*place, value)
            }
            Stmt::Call(number, args) => {
                let values = args.iter().map(|it| self.expr(it)).collect::<Result<_, _>>()?;
                self.call(*number, values)
            }
            Stmt::If(condition, one) => match self.expr(condition)? {
                Value::Bool(true) => self.stmt(one),
                Value::Bool(false) => Ok(()),
                _ => misfit(),
            },
            Stmt::For(local, first, last, list) => self.turns(*local, first, last, list),
            Stmt::MoveAbsJ(target, speed) => match (self.expr(target)?, self.expr(speed)?) {
                (Value::Target(target), Value::Speed(speed)) => self.travel(&target, speed[0]),
                _ => misfit(),
            },
        }
    }

    /// A routine: at most 32 are active, with at most 20,000 values.
    fn call(&mut self, number: usize, mut values: Vec<Value>) -> Result<(), Fate> {
        let Routine(locals, list) = &self.routines[number];
        values.resize(values.len() + locals, ZERO);
        let held: usize = self.frames.iter().map(|it| it.values.len()).sum();
        if self.frames.len() >= 32 || held + values.len() > 20_000 {
            return Err("Fault DepthLimit");
        }
        self.frames.push(Frame { values, seen: 0 });
        list.iter().try_for_each(|it| self.stmt(it))?;
        self.frames.pop();
        Ok(())
    }

    /// A FOR after its Look. Each turn has one more, and past the range of num the loop ends.
    fn turns(&mut self, local: usize, first: &Expr, last: &Expr, list: &'t [Stmt]) -> Result<(), Fate> {
        let places = [0, 1, 2].map(|k| Place::Local(local + k));
        let (from, to) = (self.num(first)?, self.num(last)?);
        for (place, value) in places.into_iter().zip([from, to, if to < from { -1000 } else { 1000 }]) {
            self.store(place, Value::Num(value))?;
        }
        loop {
            let [at, end, step] = places.map(|it| self.load(it).map(num_in));
            if if step? < 0 { at? < end? } else { end? < at? } {
                return Ok(());
            }
            self.look()?;
            list.iter().try_for_each(|it| self.stmt(it))?;
            let next = num_in(self.load(places[0])?) + num_in(self.load(places[2])?);
            if next.abs() > MOST {
                return Ok(());
            }
            self.store(places[0], Value::Num(next))?;
        }
    }

    /// A move: no axis takes more in one setpoint than the whole part of the speed, in thousandths of a degree. There is a Look
    /// between two setpoints.
    fn travel(&mut self, target: &Joints, speed: Num) -> Result<(), Fate> {
        if target[..6].iter().any(|it| it.abs() > REACH) {
            return Err("Fault JointRange");
        }
        if speed <= 0 {
            return Err("Fault Speed");
        }
        let Answer::At(start) = self.cell.ask(Request::Position)? else { misfit() };
        let cap = (speed / 1000).max(1);
        let change = (0..6).map(|k| (target[k] - start[k]).abs()).max().unwrap();
        let count = ((change + cap - 1) / cap).max(1);
        for j in 1..=count {
            if j > 1 {
                self.look()?;
            }
            let mut to = start.clone();
            for k in 0..6 {
                to[k] += rounded_ratio(i128::from(target[k] - start[k]) * i128::from(j), i128::from(count)) as Num;
            }
            self.cell.ask(Request::Setpoint(to))?;
        }
        Ok(())
    }
}

/// Neither the tree of a checked task nor an answer that fits its request gets here.
fn misfit() -> ! {
    unreachable!("a tree or an answer does not fit")
}

fn num_in(value: Value) -> Num {
    let Value::Num(number) = value else { misfit() };
    number
}

fn apply(op: Op, left: Num, right: Num) -> Result<Value, Fate> {
    let (a, b) = (i128::from(left), i128::from(right));
    let count = match op {
        Op::Add => a + b,
        Op::Sub => a - b,
        Op::Mul => rounded_ratio(a * b, 1000),
        Op::Mod if b == 0 => return Err("Fault Unhandled 101"),
        Op::Mod => i128::from(left % right),
        Op::Greater => return Ok(Value::Bool(left > right)),
    };
    if count.abs() > i128::from(MOST) { Err("Fault NumRange") } else { Ok(Value::Num(count as Num)) }
}

/// The integer nearest to a quotient, halves away from zero.
fn rounded_ratio(top: i128, bottom: i128) -> i128 {
    (2 * top.abs() + bottom) / (2 * bottom) * top.signum()
}

fn whole(number: Num) -> Expr {
    Expr::Known(Value::Num(number * 1000))
}

fn pair(op: Op, left: Expr, right: Expr) -> Expr {
    Expr::Pair(op, Box::new(left), Box::new(right))
}

fn read(place: Place) -> Expr {
    Expr::At(place)
}

/// `main` with only a FOR.
fn counting(turns: Num, one: Stmt) -> Routine {
    Routine(3, vec![Stmt::For(0, whole(1), whole(turns), vec![one])])
}

/// The routines of a cell, by its name, and its steps.
fn cell_of(name: &str) -> (Vec<Routine>, usize) {
    let (x, n, left) = (Place::Slot(0), Place::Pers(0), Place::Local(0));
    match name {
        "var" => {
            // x := (x * 3 + i) MOD 1000;
            let sum = pair(Op::Add, pair(Op::Mul, read(x), whole(3)), read(Place::Local(0)));
            (vec![counting(100_000, Stmt::Assign(x, pair(Op::Mod, sum, whole(1000))))], 200_001)
        }
        // n := n + 1;
        "pers" => (vec![counting(100_000, Stmt::Assign(n, pair(Op::Add, read(n), whole(1))))], 400_001),
        "calls" => {
            // down 30; and in it: IF left > 0 down left - 1;
            let deeper = Stmt::Call(1, vec![pair(Op::Sub, read(left), whole(1))]);
            let down = Routine(0, vec![Stmt::If(pair(Op::Greater, read(left), whole(0)), Box::new(deeper))]);
            (vec![counting(1000, Stmt::Call(1, vec![whole(30)])), down], 63_001)
        }
        "setpoints" => {
            // MoveAbsJ [[500,0,0,0,0,0],[9E9,9E9,9E9,9E9,9E9,9E9]]\NoEOffs, v5, fine, tool0;
            let target = Value::Target(Box::new(arm_at([500_000, 0, 0, 0, 0, 0])));
            let speed = Value::Speed(Box::new([5_000, 500_000, 5_000_000, 1_000_000]));
            (vec![Routine(0, vec![Stmt::MoveAbsJ(Expr::Known(target), Expr::Known(speed))])], 200_001)
        }
        _ => panic!("var, pers, calls or setpoints"),
    }
}

fn arm_at(axes: [Num; 6]) -> Joints {
    std::array::from_fn(|k| if k < 6 { axes[k] } else { ABSENT })
}

/// Where the lines go: through a buffer or, built with `--cfg lines`, each by a call of its own, as the program writes them.
fn sink() -> io::Result<Box<dyn Write>> {
    if cfg!(lines) {
        Ok(Box::new(File::options().append(true).open("/dev/stdout")?))
    } else {
        Ok(Box::new(BufWriter::new(io::stdout().lock())))
    }
}

fn main() -> io::Result<()> {
    let begun = Instant::now();
    let (routines, steps) = cell_of(&std::env::args().nth(1).unwrap_or_default());
    let cell = Cell { pers: vec![0], arm: arm_at([0; 6]), steps, history: Vec::with_capacity(steps + 1) };
    let mut task = Task { routines: &routines, cell, slots: vec![ZERO], frames: Vec::new() };
    let fate = task.call(0, Vec::new()).err().unwrap_or("Done");
    let counted = task.cell.history.len();
    if fate != "Cut" {
        // The task asks for its end, which is not counted.
        let _ = task.cell.ask(Request::End(fate));
    }
    let mut out = sink()?;
    let mut line = Vec::new();
    for event in &task.cell.history {
        if let Request::Setpoint(to) = &event.request {
            line.clear();
            write!(line, "S A")?;
            for it in &to[..6] {
                write!(line, " {}{}.{:03}", if *it < 0 { "-" } else { "" }, it.abs() / 1000, it.abs() % 1000)?;
            }
            writeln!(line)?;
            out.write_all(&line)?;
        }
    }
    writeln!(out, "E A {fate}\n{counted} events, {:.6} s", begun.elapsed().as_secs_f64())?;
    out.flush()
}
