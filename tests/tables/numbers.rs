//! How numbers are read and compared, against Python's decimal. This made the rows:
//!
//!     import random, re
//!     from decimal import Decimal
//!
//!     random.seed(20)
//!     SHAPE = re.compile(r"[+-]?(\d+(\.\d*)?|\.\d+)([eE][+-]?\d+)?\Z", re.ASCII)
//!     ODD = ["", ".", "-", "+", "e5", "1e", "1e+", "--1", "1.2.3", " 1", "1 ", "abc", "NaN", "1_0", "-.", "1e5.0", "\u0661", "1E2e3"]
//!     ZEROS = ["0", "0.0", ".0", "0.", "00", "0e5", "0e-200", "0E999"]
//!     PLAIN = ["1", "10", "1.0", ".5", "5e-1", "9.99", "100", "1.5", "99", "9" * 38, "1." + "0" * 36 + "1"]
//!
//!     def digits(least, most):
//!         return "".join(random.choice("0123456789") for _ in range(random.randint(least, most)))
//!
//!     def text():
//!         body = random.choice([
//!             random.choice(ODD), random.choice(ZEROS), digits(1, 40), digits(30, 38) + "0" * random.randint(0, 20),
//!             "0" * random.randint(0, 4) + digits(1, 5) + "." + digits(0, 5) + "0" * random.randint(0, 3),
//!             "." + "0" * random.randint(0, 50) + digits(1, 37), *random.sample(PLAIN, 3)])
//!         if body not in ODD and "e" not in body.lower() and random.random() < 0.5:
//!             exponent = random.choice([random.randint(-4, 4), random.randint(-140, 135), 125, 126, -130, -131])
//!             body += random.choice("eE") + random.choice(["", "+"] if exponent >= 0 else [""]) + str(exponent)
//!         return (random.choice(["", "", "", "-", "-", "+"]) if body not in ODD else "") + body
//!
//!     def kept(text):
//!         if not SHAPE.match(text):
//!             return None
//!         number = Decimal(text)
//!         count = "".join(map(str, number.as_tuple().digits)).strip("0")
//!         return number if number == 0 or len(count) <= 38 and Decimal("1e-130") <= abs(number) < Decimal("1e126") else None
//!
//!     def beside(text_):
//!         number = kept(text_)
//!         if number is None or random.random() < 0.3:
//!             return text()
//!         small = abs(number.adjusted()) < 60
//!         return random.choice([str(number), str(number).lower(), str(number.copy_negate()), str(number.next_plus()), str(number.scaleb(1)),
//!                               format(number, "f") + ("0" if "." in format(number, "f") else ".00") if small else str(number)])
//!
//!     for _ in range(2000):
//!         a = text()
//!         b = beside(a)
//!         x, y = kept(a), kept(b)
//!         order = "no number" if x is None or y is None else "<" if x < y else ">" if x > y else "="
//!         print(a, x is not None, b, y is not None, order, sep="\t")
use std::cmp::Ordering;
use table_memory::Number;

fn order_of(text: &str, other: &str) -> &'static str {
    match (Number::parse(text), Number::parse(other)) {
        (Some(number), Some(other)) => match number.cmp(&other) {
            Ordering::Less => "<",
            Ordering::Equal => "=",
            Ordering::Greater => ">",
        },
        _ => "no number",
    }
}

fn truth(holds: bool) -> &'static str {
    if holds { "True" } else { "False" }
}

/// Whether a row says what the library answers.
pub fn agrees(row: &str) -> bool {
    let mut fields = row.split('\t');
    let (Some(text), Some(kept)) = (fields.next(), fields.next()) else {
        return false;
    };
    let (Some(other), Some(other_kept)) = (fields.next(), fields.next()) else {
        return false;
    };
    truth(Number::parse(text).is_some()) == kept
        && truth(Number::parse(other).is_some()) == other_kept
        && fields.next() == Some(order_of(text, other))
}
