//! Programs that people run, made by the builder; `examples/README.md` shows them all.

use crate::builder::*;
use crate::expression::Expression;
use crate::notation::Called;
use crate::record::SetOperator;
use crate::values::Operator;

/// A program with the names that its notation uses; the file has numbers only.
pub struct Example {
    pub name: &'static str,
    pub called: Called,
    pub tree: Tree,
}

impl Example {
    fn new(name: &'static str, called: Called, tree: Tree) -> Example {
        Example { name, called, tree }
    }

    pub fn file_name(&self) -> String {
        format!("{}.janus", self.name)
    }

    /// The program in Janus notation.
    pub fn notation(&self) -> String {
        self.called.program(&self.tree)
    }
}

pub fn all() -> Vec<Example> {
    vec![
        counter(),
        fibonacci(),
        filter(),
        sort(),
        run_length(),
        root(),
        power(),
        stop31(),
        stop32(),
        stop33(),
        stop34(),
    ]
}

fn add(left: Expression, right: Expression) -> Expression {
    binary(Operator::Add, left, right)
}

fn subtract(left: Expression, right: Expression) -> Expression {
    binary(Operator::Subtract, left, right)
}

fn times(left: Expression, right: Expression) -> Expression {
    binary(Operator::Multiply, left, right)
}

fn divide(left: Expression, right: Expression) -> Expression {
    binary(Operator::Divide, left, right)
}

fn remainder(left: Expression, right: Expression) -> Expression {
    binary(Operator::Remainder, left, right)
}

fn greater(left: Expression, right: Expression) -> Expression {
    binary(Operator::Greater, left, right)
}

fn xor(number: u16, expression: Expression) -> Node {
    Node::Set(to_scalar(SetOperator::Xor, number, expression))
}

fn minus_at(number: u16, index: Expression, expression: Expression) -> Node {
    Node::Set(to_array(SetOperator::Minus, number, index, expression))
}

fn skip() -> Vec<Node> {
    vec![Node::Skip]
}

fn is(number: u16, value: i32) -> Expression {
    equal(scalar(number), constant(value))
}

/// `from counter = first do body, counter += step loop skip until counter = last`.
fn counted(counter: u16, first: i32, step: i32, last: i32, mut body: Vec<Node>) -> Node {
    body.push(plus(counter, constant(step)));
    Node::From(is(counter, first), body, skip(), is(counter, last))
}

/// Document 01's example, 76 bytes.
///
/// ```text
/// n += 3
/// from i = 0 do
///   i += 1
/// loop
///   skip
/// until i = n
/// ```
pub fn counter() -> Example {
    let called = Called {
        scalars: &["i", "n"],
        arrays: &[],
        procedures: &[],
    };
    Example::new("counter", called, example())
}

/// Two neighbouring Fibonacci numbers.
///
/// ```text
/// n += 10
/// call fib
///
/// procedure fib
///   if n = 0 then
///     x += 1
///     y += 1
///   else
///     n -= 1
///     call fib
///     x += y
///     x ^= y
///     y ^= x
///     x ^= y
///   fi x = y
/// ```
pub fn fibonacci() -> Example {
    const N: u16 = 0;
    const X: u16 = 1;
    const Y: u16 = 2;
    let first = vec![plus(X, constant(1)), plus(Y, constant(1))];
    let second = vec![
        minus(N, constant(1)),
        Node::Call(1),
        plus(X, scalar(Y)),
        // The two change places.
        xor(X, scalar(Y)),
        xor(Y, scalar(X)),
        xor(X, scalar(Y)),
    ];
    let fib = Node::If(is(N, 0), first, second, equal(scalar(X), scalar(Y)));
    let main = vec![plus(N, constant(10)), Node::Call(1)];
    let called = Called {
        scalars: &["n", "x", "y"],
        arrays: &[],
        procedures: &["fib"],
    };
    Example::new("fibonacci", called, tree(3, &[], vec![main, vec![fib]]))
}

/// A recorder's lossless filter, by lifting: odd samples become what their neighbours do not
/// foretell, even ones are smoothed by a quarter of that. The filtered samples are copied, and
/// `uncall` gives the recorded ones back.
///
/// ```text
/// call record
/// call filter
/// from i = 0 do
///   y[i] += x[i]
///   i += 1
/// loop
///   skip
/// until i = 17
/// i -= 17
/// uncall filter
///
/// procedure record
///   from i = 0 do
///     x[i] += ((200 + (i * 24)) - (i * i)) + ((i * 7) % 5)
///     i += 1
///   loop
///     skip
///   until i = 17
///   i -= 17
///
/// procedure filter
///   call predict
///   call update
///
/// procedure predict
///   i += 1
///   from i = 1 do
///     t += (x[i - 1] + x[i + 1]) / 2
///     x[i] -= t
///     t -= (x[i - 1] + x[i + 1]) / 2
///     i += 2
///   loop
///     skip
///   until i = 17
///   i -= 17
///
/// procedure update
///   i += 2
///   from i = 2 do
///     t += ((x[i - 1] + x[i + 1]) + 2) / 4
///     x[i] += t
///     t -= ((x[i - 1] + x[i + 1]) + 2) / 4
///     i += 2
///   loop
///     skip
///   until i = 16
///   i -= 16
/// ```
pub fn filter() -> Example {
    const I: u16 = 0;
    const T: u16 = 1;
    const X: u16 = 0;
    const Y: u16 = 1;
    let i = || scalar(I);
    let copy = counted(I, 0, 1, 17, vec![plus_at(Y, i(), array(X, i()))]);
    let main = vec![
        Node::Call(1),
        Node::Call(2),
        copy,
        minus(I, constant(17)),
        Node::Uncall(2),
    ];
    let curve = subtract(
        add(constant(200), times(i(), constant(24))),
        times(i(), i()),
    );
    let noise = remainder(times(i(), constant(7)), constant(5));
    let sample = vec![plus_at(X, i(), add(curve, noise))];
    let record = vec![counted(I, 0, 1, 17, sample), minus(I, constant(17))];
    let beside = || {
        let before = array(X, subtract(i(), constant(1)));
        add(before, array(X, add(i(), constant(1))))
    };
    let foretold = || divide(beside(), constant(2));
    let predicted = vec![
        plus(T, foretold()),
        minus_at(X, i(), scalar(T)),
        minus(T, foretold()),
    ];
    let predict = vec![
        plus(I, constant(1)),
        counted(I, 1, 2, 17, predicted),
        minus(I, constant(17)),
    ];
    let quarter = || divide(add(beside(), constant(2)), constant(4));
    let updated = vec![
        plus(T, quarter()),
        plus_at(X, i(), scalar(T)),
        minus(T, quarter()),
    ];
    let update = vec![
        plus(I, constant(2)),
        counted(I, 2, 2, 16, updated),
        minus(I, constant(16)),
    ];
    let both = vec![Node::Call(3), Node::Call(4)];
    let called = Called {
        scalars: &["i", "t"],
        arrays: &["x", "y"],
        procedures: &["record", "filter", "predict", "update"],
    };
    let procedures = vec![main, record, both, predict, update];
    Example::new("filter", called, tree(2, &[17, 17], procedures))
}

/// Sorting by neighbours; whether each comparison changed places is kept in `g`.
///
/// ```text
/// call fill
/// call sort
///
/// procedure fill
///   from i = 0 do
///     x[i] += ((i * 37) + 11) % 64
///     i += 1
///   loop
///     skip
///   until i = 8
///   i -= 8
///
/// procedure sort
///   from i = 0 do
///     from j = 0 do
///       if x[j] > x[j + 1] then
///         call swap
///         g[k] += 1
///       else
///         skip
///       fi g[k] = 1
///       k += 1
///       j += 1
///     loop
///       skip
///     until j = 7
///     j -= 7
///     i += 1
///   loop
///     skip
///   until i = 7
///   i -= 7
///   k -= 49
///
/// procedure swap
///   t += x[j]
///   u += x[j + 1]
///   x[j] += u - t
///   x[j + 1] -= u - t
///   t -= x[j + 1]
///   u -= x[j]
/// ```
pub fn sort() -> Example {
    const I: u16 = 0;
    const J: u16 = 1;
    const K: u16 = 2;
    const T: u16 = 3;
    const U: u16 = 4;
    const X: u16 = 0;
    const G: u16 = 1;
    let here = || array(X, scalar(J));
    let after = || add(scalar(J), constant(1));
    let next = || array(X, after());
    let mixed = remainder(
        add(times(scalar(I), constant(37)), constant(11)),
        constant(64),
    );
    let fill = vec![
        counted(I, 0, 1, 8, vec![plus_at(X, scalar(I), mixed)]),
        minus(I, constant(8)),
    ];
    let changed = vec![Node::Call(3), plus_at(G, scalar(K), constant(1))];
    let was_changed = equal(array(G, scalar(K)), constant(1));
    let compared = vec![
        Node::If(greater(here(), next()), changed, skip(), was_changed),
        plus(K, constant(1)),
    ];
    let pass = vec![counted(J, 0, 1, 7, compared), minus(J, constant(7))];
    let sort = vec![
        counted(I, 0, 1, 7, pass),
        minus(I, constant(7)),
        minus(K, constant(49)),
    ];
    let difference = || subtract(scalar(U), scalar(T));
    let swap = vec![
        plus(T, here()),
        plus(U, next()),
        plus_at(X, scalar(J), difference()),
        minus_at(X, after(), difference()),
        minus(T, next()),
        minus(U, here()),
    ];
    let main = vec![Node::Call(1), Node::Call(2)];
    let called = Called {
        scalars: &["i", "j", "k", "t", "u"],
        arrays: &["x", "g"],
        procedures: &["fill", "sort", "swap"],
    };
    Example::new(
        "sort",
        called,
        tree(5, &[8, 49], vec![main, fill, sort, swap]),
    )
}

/// A text that ends at its first 0 becomes pairs of a value and how often it stands in a row.
///
/// ```text
/// call write
/// call encode
///
/// procedure write
///   from i = 0 do
///     text[i] += 3 + ((i * i) / 40)
///     i += 1
///   loop
///     skip
///   until i = 12
///   i -= 12
///
/// procedure encode
///   from j = 0 do
///     code[j] += text[i]
///     text[i] -= code[j]
///     from code[j + 1] = 0 do
///       code[j + 1] += 1
///       i += 1
///     loop
///       text[i] -= code[j]
///     until text[i] != code[j]
///     j += 2
///   loop
///     skip
///   until text[i] = 0
/// ```
pub fn run_length() -> Example {
    const I: u16 = 0;
    const J: u16 = 1;
    const TEXT: u16 = 0;
    const CODE: u16 = 1;
    let letter = || array(TEXT, scalar(I));
    let value = || array(CODE, scalar(J));
    let after = || add(scalar(J), constant(1));
    let written = add(
        constant(3),
        divide(times(scalar(I), scalar(I)), constant(40)),
    );
    let write = vec![
        counted(I, 0, 1, 12, vec![plus_at(TEXT, scalar(I), written)]),
        minus(I, constant(12)),
    ];
    let row = Node::From(
        equal(array(CODE, after()), constant(0)),
        vec![plus_at(CODE, after(), constant(1)), plus(I, constant(1))],
        vec![minus_at(TEXT, scalar(I), value())],
        binary(Operator::Unequal, letter(), value()),
    );
    let pair = vec![
        plus_at(CODE, scalar(J), letter()),
        minus_at(TEXT, scalar(I), value()),
        row,
        plus(J, constant(2)),
    ];
    let encode = Node::From(is(J, 0), pair, skip(), equal(letter(), constant(0)));
    let main = vec![Node::Call(1), Node::Call(2)];
    let called = Called {
        scalars: &["i", "j"],
        arrays: &["text", "code"],
        procedures: &["write", "encode"],
    };
    Example::new(
        "runlength",
        called,
        tree(2, &[16, 16], vec![main, write, vec![encode]]),
    )
}

/// The whole square root, a classic of Janus: `double` is called to find a power of two beyond the
/// root, and uncalled to come down from it.
///
/// ```text
/// num += 2000
/// call root
///
/// procedure root
///   bit += 1
///   from bit = 1 do
///     call double
///   loop
///     skip
///   until (bit * bit) > num
///   from (bit * bit) > num do
///     uncall double
///     if ((r + bit) * (r + bit)) <= num then
///       r += bit
///     else
///       skip
///     fi ((r / bit) % 2) = 1
///   loop
///     skip
///   until bit = 1
///   bit -= 1
///   num -= r * r
///
/// procedure double
///   z += bit
///   bit += z
///   z -= bit / 2
/// ```
pub fn root() -> Example {
    const NUM: u16 = 0;
    const R: u16 = 1;
    const BIT: u16 = 2;
    const Z: u16 = 3;
    let beyond = || greater(times(scalar(BIT), scalar(BIT)), scalar(NUM));
    let more = || add(scalar(R), scalar(BIT));
    let within = binary(Operator::AtMost, times(more(), more()), scalar(NUM));
    let odd = equal(
        remainder(divide(scalar(R), scalar(BIT)), constant(2)),
        constant(1),
    );
    let tried = vec![
        Node::Uncall(2),
        Node::If(within, vec![plus(R, scalar(BIT))], skip(), odd),
    ];
    let root = vec![
        plus(BIT, constant(1)),
        Node::From(is(BIT, 1), vec![Node::Call(2)], skip(), beyond()),
        Node::From(beyond(), tried, skip(), is(BIT, 1)),
        minus(BIT, constant(1)),
        minus(NUM, times(scalar(R), scalar(R))),
    ];
    let double = vec![
        plus(Z, scalar(BIT)),
        plus(BIT, scalar(Z)),
        minus(Z, divide(scalar(BIT), constant(2))),
    ];
    let main = vec![plus(NUM, constant(2000)), Node::Call(1)];
    let called = Called {
        scalars: &["num", "r", "bit", "z"],
        arrays: &[],
        procedures: &["root", "double"],
    };
    Example::new("root", called, tree(4, &[], vec![main, root, double]))
}

/// A power by recursion; the result is copied and the computation taken back by `uncall`.
///
/// ```text
/// b += 3
/// n += 5
/// call power
/// result += p
/// uncall power
///
/// procedure power
///   if n = 0 then
///     p += 1
///   else
///     n -= 1
///     call power
///     n += 1
///     t += p * b
///     p -= t / b
///     p += t
///     t -= p
///   fi n = 0
/// ```
pub fn power() -> Example {
    const B: u16 = 0;
    const N: u16 = 1;
    const P: u16 = 2;
    const T: u16 = 3;
    const RESULT: u16 = 4;
    let main = vec![
        plus(B, constant(3)),
        plus(N, constant(5)),
        Node::Call(1),
        plus(RESULT, scalar(P)),
        Node::Uncall(1),
    ];
    let second = vec![
        minus(N, constant(1)),
        Node::Call(1),
        plus(N, constant(1)),
        plus(T, times(scalar(P), scalar(B))),
        minus(P, divide(scalar(T), scalar(B))),
        plus(P, scalar(T)),
        minus(T, scalar(P)),
    ];
    let power = Node::If(is(N, 0), vec![plus(P, constant(1))], second, is(N, 0));
    let called = Called {
        scalars: &["b", "n", "p", "t", "result"],
        arrays: &[],
        procedures: &["power"],
    };
    Example::new("power", called, tree(5, &[], vec![main, vec![power]]))
}

/// Stops with 31: the assertion says what held before, and not what holds now.
///
/// ```text
/// n += 5
/// if n > 3 then
///   n -= 4
/// else
///   skip
/// fi n > 3
/// ```
pub fn stop31() -> Example {
    const N: u16 = 0;
    let large = || greater(scalar(N), constant(3));
    let reduced = vec![minus(N, constant(4))];
    let main = vec![
        plus(N, constant(5)),
        Node::If(large(), reduced, skip(), large()),
    ];
    let called = Called {
        scalars: &["n"],
        arrays: &[],
        procedures: &[],
    };
    Example::new("stop31", called, tree(1, &[], vec![main]))
}

/// Stops with 32: the loop comes down to a divisor of 0.
///
/// ```text
/// n += 3
/// from n = 3 do
///   q[n] += 100 / n
///   n -= 1
/// loop
///   skip
/// until n < 0
/// ```
pub fn stop32() -> Example {
    const N: u16 = 0;
    const Q: u16 = 0;
    let shared = vec![
        plus_at(Q, scalar(N), divide(constant(100), scalar(N))),
        minus(N, constant(1)),
    ];
    let below = binary(Operator::Less, scalar(N), constant(0));
    let main = vec![
        plus(N, constant(3)),
        Node::From(is(N, 3), shared, skip(), below),
    ];
    let called = Called {
        scalars: &["n"],
        arrays: &["q"],
        procedures: &[],
    };
    Example::new("stop32", called, tree(1, &[4], vec![main]))
}

/// Stops with 33: `x` has 8 cells, and the loop wants a ninth.
///
/// ```text
/// from i = 0 do
///   x[i] += i * i
///   i += 1
/// loop
///   skip
/// until i = 9
/// ```
pub fn stop33() -> Example {
    const I: u16 = 0;
    const X: u16 = 0;
    let square = plus_at(X, scalar(I), times(scalar(I), scalar(I)));
    let main = vec![counted(I, 0, 1, 9, vec![square])];
    let called = Called {
        scalars: &["i"],
        arrays: &["x"],
        procedures: &[],
    };
    Example::new("stop33", called, tree(1, &[8], vec![main]))
}

/// Stops with 34: a recursion without an end.
///
/// ```text
/// call dig
///
/// procedure dig
///   depth += 1
///   call dig
/// ```
pub fn stop34() -> Example {
    let dig = vec![plus(0, constant(1)), Node::Call(1)];
    let called = Called {
        scalars: &["depth"],
        arrays: &[],
        procedures: &["dig"],
    };
    Example::new(
        "stop34",
        called,
        tree(1, &[], vec![vec![Node::Call(1)], dig]),
    )
}
