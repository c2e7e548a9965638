//! Every limit of the paper at its edge and one past it.

use super::layout::write_out;
use super::random::Random;
use super::{author, lend, module_words, Size, FEW_UNDO, STORE_WORDS};
use crate::bench::{answer, Lent};
use crate::run::Abort;

/// A module of module data, the lists of main and further routines.
fn module(data: &str, main: &str, routines: &str) -> Vec<u8> {
    format!("MODULE m\n{data}\nPROC main()\n{main}\nENDPROC\n{routines}\nENDMODULE\n").into_bytes()
}

pub fn limit_case(random: &mut Random, size: Size) -> Lent {
    const SHORT: [fn(&mut Random) -> Lent; 14] = [
        compounds,
        compounds_with_mistake,
        parentheses,
        strings,
        names,
        numbers,
        array_sizes,
        data_words,
        routine_words,
        depths,
        stores,
        output_room,
        input_count,
        range_ends,
    ];
    const LONG: [fn(&mut Random) -> Lent; 4] = [text_length, word_count, routine_count, many_words];
    match size {
        Size::Long if random.chance(30) => random.pick(&LONG)(random),
        _ if random.chance(10) => steps_spent(random, size),
        _ => random.pick(&SHORT)(random),
    }
}

/// An opening and a closing part of a compound statement.
const COMPOUNDS: [(&str, &str); 7] = [
    ("WHILE b DO ", "b:=FALSE;ENDWHILE "),
    ("FOR i FROM 1 TO 1 DO ", "ENDFOR "),
    ("TEST 1 DEFAULT:", "ENDTEST "),
    ("TEST 1 CASE 2: CASE 1:", "ENDTEST "),
    ("IF b THEN ", "ENDIF "),
    ("IF NOT b THEN ELSEIF b THEN ", "ENDIF "),
    ("IF NOT b THEN ELSE ", "ENDIF "),
];

fn nest(random: &mut Random, count: usize, innermost: &str) -> String {
    let mixed = random.chance(50);
    let same = random.pick(&COMPOUNDS);
    let mut open = String::new();
    let mut close = String::new();
    for _ in 0..count {
        let (start, end) = if mixed { random.pick(&COMPOUNDS) } else { same };
        open.push_str(start);
        close.insert_str(0, end);
    }
    open + innermost + &close
}

fn compounds(random: &mut Random) -> Lent {
    let count = random.between(15, 18);
    let innermost = random.pick(&["", "IF b b:=FALSE;", "EXIT;", "IF b EXIT;"]);
    let nested = nest(random, count, innermost);
    let main = match random.below(5) {
        0 => format!("RAISE 1; ERROR {nested}"),
        1 => format!("{nested} ERROR IF b THEN ENDIF"),
        2 => format!("{nested} UNDO IF b THEN ENDIF"),
        3 => format!("EXIT; ERROR IF b THEN ENDIF UNDO {nested}"),
        _ => nested,
    };
    let text = module("VAR bool b:=TRUE;", &main, "");
    let mut lent = lend(random, text);
    if random.chance(40) {
        lent.abort = abort_near(random, 2);
    }
    lent
}

/// K at a step near a number of them, and few UNDO steps or many.
fn abort_near(random: &mut Random, steps: usize) -> Option<Abort> {
    let at = (steps + random.below(3)).saturating_sub(random.below(3)) as u32;
    let undo = random.pick(&[0, 1, 2, 3, 5, 20, 200, u32::MAX]);
    Some(Abort { at, undo })
}

/// A word out of place in the head of the last compound: before or after its 9.
fn compounds_with_mistake(random: &mut Random) -> Lent {
    let count = random.between(15, 17);
    let innermost = random.pick(&[
        "IF b + THEN ENDIF",
        "IF b ; THEN ENDIF",
        "IF b THEN ; ENDIF",
        "FOR i FROM + TO DO ENDFOR",
        "FOR 1 FROM 1 TO 1 DO ENDFOR",
        "WHILE DO ENDWHILE",
        "TEST CASE ENDTEST",
        "IF b IF b EXIT;",
    ]);
    let text = module("VAR bool b:=TRUE;", &nest(random, count, innermost), "");
    lend(random, text)
}

fn parentheses(random: &mut Random) -> Lent {
    let count = random.between(14, 17);
    let braces = random.chance(40);
    let mut inner = "1".to_string();
    for _ in 0..count {
        let brace = braces && random.chance(60);
        inner = if brace {
            format!("a{{{inner}}}")
        } else {
            format!("({inner})")
        };
    }
    let (data, main) = match random.below(8) {
        0 => (String::new(), format!("a{{{inner}}}:=1;")),
        1 => (String::new(), format!("TPReadNum a{{{inner}}},\"\";")),
        2 => (String::new(), format!("q {inner},{inner};")),
        3 => (String::new(), format!("n:=f({inner});")),
        4 => (format!("VAR num z{{{inner}}};"), String::new()),
        5 => (format!("CONST num z:={inner};"), String::new()),
        6 => (
            String::new(),
            format!("IF {inner}=1 TPWrite \"\"\\Num:={inner};"),
        ),
        _ => (String::new(), format!("n:={inner}+{inner};")),
    };
    let data = format!("VAR num a{{2}};VAR num n;{data}");
    let main = format!("a{{1}}:=1;{main}");
    let routines = "PROC q(num x,num y)ENDPROC FUNC num f(num x)RETURN x;ENDFUNC";
    let text = module(&data, &main, routines);
    lend(random, text)
}

fn strings(random: &mut Random) -> Lent {
    let count = random.between(79, 82);
    let quotes = random.below(6);
    let inside = "\"\"".repeat(quotes) + &"s".repeat(count - quotes);
    let main = match random.below(3) {
        0 => format!("TPReadNum n,\"{inside}\";TPWrite \"n\"\\Num:=n;"),
        _ => format!("TPWrite \"{inside}\"\\Num:=n;"),
    };
    let mut lent = lend(random, module("VAR num n;", &main, ""));
    lent.output_room = random.pick(&[80, 81, 82, 83, 200]);
    lent
}

fn names(random: &mut Random) -> Lent {
    let name = "N".repeat(random.between(31, 33));
    let other = "n".repeat(random.between(31, 33));
    let text = module(
        &format!("VAR num {name}:=1;"),
        &format!("{other}:={name}+1;"),
        "",
    );
    lend(random, text)
}

fn numbers(random: &mut Random) -> Lent {
    let zeros = "0".repeat(random.pick(&[0, 0, 1, 30]));
    let number = random.pick(&[
        "8388607",
        "8388608",
        "8388609",
        "8388608x",
        "99999999999999999999",
    ]);
    let text = module(
        "VAR num n;",
        &format!("n:={zeros}{number};TPWrite \"\"\\Num:=-n;"),
        "",
    );
    lend(random, text)
}

fn array_sizes(random: &mut Random) -> Lent {
    let size = random.pick(&[
        "0",
        "1",
        "512",
        "513",
        "-1",
        "256+256",
        "512+1",
        "8388608+1",
        "64",
        "65",
    ]);
    let index = random.pick(&["0", "1", "2", "64", "511", "512", "513", "-1"]);
    let array = format!("VAR num a{{{size}}};");
    let main = format!("a{{{index}}}:=7;TPWrite \"\"\\Num:=a{{{index}}};");
    let text = if random.chance(60) {
        module(&array, &main, "")
    } else {
        module("", &(array + &main), "")
    };
    lend(random, text)
}

fn data_words(random: &mut Random) -> Lent {
    let last = random.between(509, 512);
    let more = random.pick(&[
        "",
        "VAR num x;",
        "CONST num x:=1;",
        "VAR bool x:=zz;",
        "VAR num x{1};",
    ]);
    let others = random.pick(&[
        "VAR num y;",
        "VAR num y{zz};",
        "VAR num y{513};",
        "CONST num y:=1 DIV 0;",
    ]);
    let others = if random.chance(40) { others } else { "" };
    let data = format!("VAR num a{{512}};VAR bool b{{{last}}};{more}{others}VAR num e;");
    let text = module(&data, "e:=1;b{1}:=TRUE;", "");
    lend(random, text)
}

fn routine_words(random: &mut Random) -> Lent {
    let size = random.between(59, 64);
    let constant = random.pick(&["", "CONST num c:=1;", "VAR num c:=zz;"]);
    let loops = "FOR i FROM 1 TO 1 DO ENDFOR ".repeat(random.below(3));
    let handler = random.pick(&["", "ERROR FOR j FROM 1 TO 1 DO ENDFOR"]);
    let undo = random.pick(&["", "", " UNDO FOR j FROM 2 TO x DO a{j}:=j;ENDFOR"]);
    let head =
        format!("PROC p(num x,bool y)VAR num a{{{size}}};{constant}{loops}{handler}{undo} ENDPROC");
    let text = module("", "p 1,TRUE;", &head);
    let mut lent = lend(random, text);
    if !undo.is_empty() {
        lent.abort = abort_near(random, 2);
    }
    lent
}

/// Recursion to a known depth, and depths that are none.
fn depths(random: &mut Random) -> Lent {
    let reached = random.pick(&[1, 2, 3, 62, 63, 64]);
    let undo = random.pick(&["", " UNDO n:=n+x;", " UNDO TPWrite \"u\"\\Num:=x;"]);
    let routines = format!("PROC p(num x)IF x>1 p x-1;TPWrite \"d\"\\Num:=x;{undo}ENDPROC");
    let main = format!("n:=1;p {reached};n:=2;{undo}").replace('x', "n");
    let text = module("VAR num n;", &main, &routines);
    let mut lent = lend(random, text);
    lent.depth = random.pick(&[0, 1, 2, 3, 4, 63, 64, 64, 65, 255]);
    lent.steps = 1_000;
    if !undo.is_empty() {
        // where the deepest call has begun
        lent.abort = abort_near(random, 2 * reached);
    }
    lent
}

fn stores(random: &mut Random) -> Lent {
    let text = random
        .pick(&["MODULE m PROC main()ENDPROC ENDMODULE", "", "?"])
        .as_bytes()
        .to_vec();
    let mut lent = lend(random, text);
    let lengths = [
        0,
        1,
        STORE_WORDS - 1,
        STORE_WORDS,
        STORE_WORDS,
        STORE_WORDS + 1,
        40_000,
    ];
    lent.code_words = random.pick(&lengths);
    lent.value_words = random.pick(&lengths);
    lent.depth = random.pick(&[0, 1, 65]);
    lent
}

fn output_room(random: &mut Random) -> Lent {
    let number = random.pick(&["n", "-n", "8388608", "-8388607", "n-8388607"]);
    let main = format!("n:=10;TPWrite \"a\"\"b\"\\Num:={number};TPReadNum n,\"in\";TPWrite \"\";");
    let mut lent = lend(random, module("VAR num n;", &main, ""));
    lent.inputs = vec![5];
    lent.steps = 100;
    lent.output_room = 4_096;
    trim_room(random, &mut lent);
    lent
}

/// Lends just the room that the run takes, a byte less or a little more.
fn trim_room(random: &mut Random, lent: &mut Lent) {
    let taken = answer(lent).output.len() as u64;
    let shortage = random.pick(&[0, 0, 1, 1, 2, 5, 8]);
    lent.output_room = taken.saturating_sub(shortage) + u64::from(random.chance(20));
}

fn input_count(random: &mut Random) -> Lent {
    let count = random.between(1, 4);
    let main = "TPReadNum a{n},\"\";n:=n+1;".repeat(count);
    let mut lent = lend(random, module("VAR num a{3};VAR num n:=1;", &main, ""));
    let edges = [
        0,
        1,
        8_388_607,
        8_388_608,
        8_388_609,
        -8_388_607,
        -8_388_608,
        i32::MAX,
        i32::MIN,
    ];
    lent.inputs = (0..random.between(count - 1, count + 1))
        .map(|_| random.pick(&edges))
        .collect();
    lent.steps = 100;
    lent.output_room = random.pick(&[0, 1, 2, 3, 10]);
    lent
}

fn range_ends(random: &mut Random) -> Lent {
    let ends = [
        "8388608",
        "8388607",
        "(-8388607)",
        "1",
        "0",
        "(-1)",
        "2",
        "4194304",
        "n",
        "2896",
        "2897",
    ];
    let operators = ["+", "-", "*", "DIV", "MOD"];
    let mut main = "n:=-8388607;".to_string();
    for _ in 0..random.between(1, 4) {
        let sign = random.pick(&["", "-", "+"]);
        let left = random.pick(&ends);
        let operator = random.pick(&operators);
        let right = random.pick(&ends);
        main.push_str(&format!(
            "m:={sign}{left} {operator} {right};TPWrite \"\"\\Num:=m;"
        ));
    }
    main.push_str("ERROR TPWrite \"e\"\\Num:=ERRNO;TRYNEXT;");
    let mut lent = lend(random, module("VAR num n;VAR num m;", &main, ""));
    lent.steps = 1_000;
    lent.output_room = 4_096;
    lent
}

/// Just the steps that the run takes, one less or one more.
fn steps_spent(random: &mut Random, size: Size) -> Lent {
    let words = module_words(random, size, FEW_UNDO);
    let text = write_out(random, &words);
    let mut lent = lend(random, text);
    lent.steps = 2_000;
    let taken = answer(&lent).steps as u32;
    lent.steps = (taken + random.below(2) as u32).saturating_sub(random.below(3) as u32);
    lent
}

/// Texts of 32,768 bytes and one more.
pub fn text_length(random: &mut Random) -> Lent {
    let length = random.pick(&[32_767, 32_768, 32_769, 32_770]);
    filled(random, length)
}

pub fn too_long(random: &mut Random) -> Lent {
    filled(random, 32_769)
}

/// A module with something behind it up to a length.
fn filled(random: &mut Random, length: usize) -> Lent {
    let goal = random.between(60, 400);
    let words = author::module(random, goal, FEW_UNDO);
    let mut text = write_out(random, &words);
    if random.chance(50) {
        text.push(b'!');
    }
    let filling = random.pick(b" \n\t;x\xe9");
    text.resize(length, filling);
    lend(random, text)
}

/// Modules of 8,192 words and one more, and what may stand at word 8,193.
pub fn word_count(random: &mut Random) -> Lent {
    const FIXED: usize = 9;
    let count = random.between(8_190, 8_192);
    let mut main = String::new();
    let mut left = count - FIXED;
    if left % 2 == 1 {
        main.push_str("TPWrite\"s\";");
        left -= 3;
    }
    main.push_str(&"EXIT;".repeat(left / 2));
    let mut text = format!("MODULE m PROC main(){main}ENDPROC ENDMODULE").into_bytes();
    let ends: [&[u8]; 9] = [
        b"",
        b" ;",
        b" a b",
        b" 5x",
        b" 9999999999",
        b" \"a\x01\"",
        b" \"a",
        b" #",
        b" ! \x01",
    ];
    text.extend_from_slice(random.pick(&ends));
    lend(random, text)
}

/// The shortest text that holds too many words; no module.
pub fn too_many_words(random: &mut Random) -> Lent {
    let text = vec![b';'; random.between(8_193, 8_194)];
    lend(random, text)
}

fn routine_count(random: &mut Random) -> Lent {
    let count = random.between(62, 66);
    let mut routines = String::new();
    for number in 1..=count {
        let (kind, result) = random.pick(&[("num", "x"), ("bool", "x=1"), ("bool", "x>0")]);
        routines += &format!("FUNC {kind} f{number}(num x)RETURN {result};ENDFUNC\n");
    }
    let called = random.between(60, count);
    let argument = random.pick(&["1", "TRUE", "1,1", "zz"]);
    let text = module(
        "VAR bool b;",
        &format!("b:=f{called}({argument});"),
        &routines,
    );
    lend(random, text)
}

/// Routines with 64 words and a little more in parameters alone.
fn many_words(random: &mut Random) -> Lent {
    let count = random.between(63, 66);
    let parameters: Vec<String> = (1..=count).map(|number| format!("num x{number}")).collect();
    let mut arguments = vec!["1"; random.between(count - 1, count)];
    let last = arguments.len() - random.between(1, 3);
    arguments[last] = random.pick(&["TRUE", "1", "zz"]);
    let routine = format!(
        "PROC p({})TPWrite\"\"\\Num:=x63;ENDPROC",
        parameters.join(",")
    );
    let text = module("", &format!("p {};", arguments.join(",")), &routine);
    lend(random, text)
}
