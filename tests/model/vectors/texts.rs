//! The model held against what the page on sheets in the operators' hands says, worked out by hand.

use super::Check;
use crate::calls::{answers, hex, unhex};
use crate::texts::run;

/// The page's example, the bytes of its sheet by the change request, and its text as it is shown.
const EXAMPLE: &str = "\
# evening of the 16th, rig 2
15 48 U16 1 4660         # lamp
15 0x32 U8 2 1 0xff
16 49 I16 3 -1 0 32767
";
const EXAMPLE_SHEET: &str = "010003000c00000024000000\
0f30030100000000\
0f32010202000000\
1031040304000000\
341201ffffff0000ff7f";
const EXAMPLE_SHOWN: &str = "15 48 U16 1 4660\n15 50 U8 2 1 255\n16 49 I16 3 -1 0 32767\n";
/// The sheet without settings, and the one of 15 48 U16 1 4660 alone.
const EMPTY: &str = "010000000c0000000c000000";
const ONE: &str = "010001000c000000140000000f300301000000003412";

/// What the program writes and says.
fn ended(args: &[&str], input: &[u8]) -> (Vec<u8>, String) {
    let args: Vec<&[u8]> = args.iter().map(|arg| arg.as_bytes()).collect();
    let ended = run(&args, || Ok(input.to_vec()));
    (ended.out, ended.said)
}

/// The bytes of a sheet by their hex digits.
fn bytes(sheet: &str) -> Vec<u8> {
    unhex(sheet.as_bytes()).unwrap_or_default()
}

/// A check that this sheet is written, and done said.
fn gives(name: &'static str, args: &[&str], input: &[u8], sheet: &str) -> Check {
    let (out, said) = ended(args, input);
    Check { name, got: format!("{} {said}", hex(&out)), want: format!("{sheet} done\n") }
}

/// A check that this text makes this sheet.
fn makes(name: &'static str, text: &str, sheet: &str) -> Check {
    gives(name, &["make"], text.as_bytes(), sheet)
}

/// A check that this line makes the sheet of one record of these bytes and this value.
fn makes_one(name: &'static str, line: &str, record: &str, value: &str) -> Check {
    makes(name, line, &format!("010001000c00000014000000{record}00000000{value}"))
}

/// A check that nothing is written, and these lines are said.
fn says(name: &'static str, args: &[&str], input: &[u8], said: &str) -> Check {
    let (out, told) = ended(args, input);
    Check { name, got: format!("{} {told}", hex(&out)), want: format!("- {said}\n") }
}

/// A check that a text makes no sheet, for these bad lines.
fn bad(name: &'static str, text: &str, said: &str) -> Check {
    says(name, &["make"], text.as_bytes(), said)
}

/// A check of what a command says of a sheet.
fn on_sheet(name: &'static str, args: &[&str], sheet: &str, said: &str) -> Check {
    says(name, args, &bytes(sheet), said)
}

/// A check that a command writes this text for a sheet.
fn writes(name: &'static str, args: &[&str], sheet: &str, text: &str) -> Check {
    let (out, said) = ended(args, &bytes(sheet));
    Check { name, got: String::from_utf8_lossy(&out).into_owned() + &said, want: format!("{text}done\n") }
}

/// So many settings of a byte each, all of module 1, from register 0 on, each in its line.
fn many(count: usize) -> String {
    (0..count).map(|register| format!("1 {register} U8 1 161\n")).collect()
}

/// The sheet of as many.
fn many_sheet(count: usize) -> String {
    let low = |number: usize| format!("{:02x}{:02x}", number % 256, number / 256);
    let records: String = (0..count).map(|register| format!("01{register:02x}0101{}0000", low(register))).collect();
    format!("0100{}0c000000{}0000{records}{}", low(count), low(12 + 8 * count), "a1".repeat(count))
}

/// The page's example there and back, and its requests, which `rehearsal` takes.
pub fn example() -> Vec<Check> {
    let requests = format!(
        "desk.open 7 15 5 48 3412 1000 0 0 {two}\ndesk.open 7 15 5 50 01ff 1000 0 0 {two}\n\
         desk.open 7 16 5 49 ffff0000ff7f 1000 0 0 {six}\n",
        two = "00".repeat(18),
        six = "00".repeat(26),
    );
    let taken: String = answers(requests.as_bytes()).lines().map(|line| line[..2].to_string()).collect();
    vec![
        makes("the page's text", EXAMPLE, EXAMPLE_SHEET),
        writes("the page's text as it is shown", &["show"], EXAMPLE_SHEET, EXAMPLE_SHOWN),
        makes("the page's text back again", EXAMPLE_SHOWN, EXAMPLE_SHEET),
        on_sheet("the page's sheet checked", &["check"], EXAMPLE_SHEET, "settings 3\ndone"),
        writes("the page's requests", &["calls", "7", "1000", "0"], EXAMPLE_SHEET, &requests),
        Check { name: "the page's requests taken", got: taken, want: "okokok".to_string() },
        writes("nothing shown of the empty sheet", &["show"], EMPTY, ""),
        writes("no requests of the empty sheet", &["calls", "7", "1000", "0"], EMPTY, ""),
        on_sheet("the empty sheet checked", &["check"], EMPTY, "settings 0\ndone"),
    ]
}

/// What lines, remarks, blanks and numbers are.
pub fn spellings() -> Vec<Check> {
    let zeros = format!("15 48 U8 1 {}7", "0".repeat(400));
    let long = format!("15 48 U8 1 {}", "9".repeat(400));
    vec![
        makes("no byte of text", "", EMPTY),
        makes("only blanks", " \t\r\n\r\n \n", EMPTY),
        makes("only remarks", "#\n# 15 48 U16 1\n\t#x", EMPTY),
        makes("no last newline", "15 48 U16 1 4660", ONE),
        makes("ends of another system", "15 48 U16 1 4660\r\n", ONE),
        makes("tabs and blanks at the ends", "\t 15\t48  U16\r1 \t4660 \r\t\n", ONE),
        makes("a remark at a word", "15 48 U16 1 4660#4661", ONE),
        makes("hex in both cases", "0xf 0x30 U16 0x1 0x1234\n15 0x32 U8 2 0x01 0xfF", &two_sheet()),
        makes("zeros ahead", "015 0048 U16 01 00004660", ONE),
        makes("zeros ahead of hex digits", "0x000f 0x0030 U16 0x01 0x00001234", ONE),
        makes_one("very many zeros ahead", &zeros, "0f300101", "07"),
        makes_one("0 with a sign", "15 -0 U8 2 -0 -0x00", "0f000102", "0000"),
        makes_one("a negative number in hex", "15 48 I16 2 -0x1 -0x8000", "0f300402", "ffff0080"),
        bad("a very long number is one", &long, "bad 1 5 fit 43"),
        bad("hex without a digit", "15 48 U8 1 0x", "bad 1 5 number 0"),
        bad("a sign without a digit", "15 48 U8 1 -", "bad 1 5 number 0"),
        bad("two signs", "15 48 I8 1 --1", "bad 1 5 number 0"),
        bad("a sign behind 0x", "15 48 I8 1 0x-1", "bad 1 5 number 0"),
        bad("a plus", "15 48 I8 1 +1", "bad 1 5 number 0"),
        bad("a capital X", "15 48 U8 1 0X1", "bad 1 5 number 0"),
        bad("hex digits without 0x", "15 48 U8 1 1f", "bad 1 5 number 0"),
        bad("a small letter of a kind", "15 48 u8 1 1", "bad 1 3 kind 69"),
        bad("byte 11 is no blank", "15 48 U8 1 1\x0b", "bad 1 5 number 0"),
        bad("byte 0 is no blank", "15 48 U8 1 1\0", "bad 1 5 number 0"),
        bad("byte 13 ends no line", "15 48 U8 1 1\r15 49 U8 1 1", "bad 1 8 number 0"),
        says("a byte over 127", &["make"], b"\xff", "bad 1 0 words 0"),
        bad("lines are counted over all", "\n# remark\n \n15\n\n15 48", "bad 4 0 words 0\nbad 6 0 words 0"),
    ]
}

/// The sheet of 15 48 U16 1 4660 and 15 50 U8 2 1 255.
fn two_sheet() -> String {
    "010002000c0000001c0000000f300301000000000f32010202000000341201ff".to_string()
}

/// Every key on both sides of its limit.
pub fn keys() -> Vec<Check> {
    let of = |kind: &str, count: usize, values: usize| format!("15 48 {kind} {count}{}", " 1".repeat(values));
    let full = |name, kind: &str, no: u8, count: usize, value: &str| {
        makes_one(name, &of(kind, count, count), &format!("0f30{no:02x}{count:02x}"), &value.repeat(count))
    };
    let past = |name, kind: &str, count: usize| bad(name, &of(kind, count, count), "bad 1 4 count 69");
    vec![
        bad("one word", "15", "bad 1 0 words 0"),
        bad("three words", "15 48 U8", "bad 1 0 words 0"),
        bad("four words", "15 48 U8 1", "bad 1 0 values 69"),
        bad("the first word that is no number", "15 x U8 y z", "bad 1 2 number 0"),
        bad("a value that is no number", "15 48 U8 2 1 x", "bad 1 6 number 0"),
        bad("module 0 in a line", "0 48 U8 1 1", "bad 1 1 module 69"),
        makes_one("module 1 in a line", "1 48 U8 1 1", "01300101", "01"),
        makes_one("module 160 in a line", "160 48 U8 1 1", "a0300101", "01"),
        bad("module 161 in a line", "161 48 U8 1 1", "bad 1 1 module 69"),
        bad("module -1", "-1 48 U8 1 1", "bad 1 1 module 69"),
        bad("module 257 is not 1", "257 48 U8 1 1", "bad 1 1 module 69"),
        makes_one("register 0", "15 0 U8 1 1", "0f000101", "01"),
        makes_one("register 255", "15 255 U8 1 1", "0fff0101", "01"),
        bad("register 256", "15 256 U8 1 1", "bad 1 2 register 0"),
        bad("register -1", "15 -1 U8 1 1", "bad 1 2 register 0"),
        bad("a kind by its number", "15 48 1 1 1", "bad 1 3 kind 69"),
        bad("no such kind", "15 48 I64 1 1", "bad 1 3 kind 69"),
        bad("count 0", "15 48 U8 0", "bad 1 4 count 69"),
        bad("count -1", "15 48 U8 -1", "bad 1 4 count 69"),
        full("240 of U8 in a line", "U8", 1, 240, "01"),
        past("241 of U8 in a line", "U8", 241),
        full("240 of I8 in a line", "I8", 2, 240, "01"),
        past("241 of I8 in a line", "I8", 241),
        full("120 of U16 in a line", "U16", 3, 120, "0100"),
        past("121 of U16 in a line", "U16", 121),
        full("120 of I16 in a line", "I16", 4, 120, "0100"),
        past("121 of I16 in a line", "I16", 121),
        full("60 of U32 in a line", "U32", 5, 60, "01000000"),
        past("61 of U32 in a line", "U32", 61),
        full("60 of I32 in a line", "I32", 6, 60, "01000000"),
        past("61 of I32 in a line", "I32", 61),
        full("30 of U64 in a line", "U64", 7, 30, "0100000000000000"),
        past("31 of U64 in a line", "U64", 31),
        bad("one value too few", &of("U8", 2, 1), "bad 1 0 values 69"),
        bad("one value too many", &of("U8", 2, 3), "bad 1 0 values 69"),
    ]
}

/// Each kind's ends, and one past them.
pub fn fits() -> Vec<Check> {
    let at = |name, kind: &str, no: u8, least: &str, greatest: &str, value: &str| {
        makes_one(name, &format!("15 48 {kind} 2 {least} {greatest}"), &format!("0f30{no:02x}02"), value)
    };
    let past = |name, kind: &str, below: &str, above: &str| {
        let text = format!("15 48 {kind} 2 0 {below}\n15 49 {kind} 2 {above} {below}");
        bad(name, &text, "bad 1 6 fit 43\nbad 2 5 fit 43")
    };
    let (u64_greatest, u64_above) = ("18446744073709551615", "18446744073709551616");
    vec![
        at("U8's ends", "U8", 1, "0", "255", "00ff"),
        past("past U8's ends", "U8", "-1", "256"),
        at("I8's ends", "I8", 2, "-128", "127", "807f"),
        past("past I8's ends", "I8", "-129", "128"),
        at("U16's ends", "U16", 3, "0", "65535", "0000ffff"),
        past("past U16's ends", "U16", "-1", "65536"),
        at("I16's ends", "I16", 4, "-32768", "32767", "0080ff7f"),
        past("past I16's ends", "I16", "-32769", "32768"),
        at("U32's ends", "U32", 5, "0", "4294967295", "00000000ffffffff"),
        past("past U32's ends", "U32", "-1", "4294967296"),
        at("I32's ends", "I32", 6, "-2147483648", "2147483647", "00000080ffffff7f"),
        past("past I32's ends", "I32", "-2147483649", "2147483648"),
        at("U64's ends", "U64", 7, "0", u64_greatest, "0000000000000000ffffffffffffffff"),
        past("past U64's ends", "U64", "-1", u64_above),
        bad("a hex value does not fit by its bits", "15 48 I16 1 0xffff", "bad 1 5 fit 43"),
    ]
}

/// Which of two neighbouring keys is told, and the settings before a line.
pub fn ranks() -> Vec<Check> {
    let first = "15 48 U8 1 1\n";
    let after = |line: &str| format!("{first}{line}");
    vec![
        bad("words ahead of number", "x 48", "bad 1 0 words 0"),
        bad("number ahead of module", "0 x U8 1 1", "bad 1 2 number 0"),
        bad("a value's number ahead of module", "0 48 U8 1 x", "bad 1 5 number 0"),
        bad("module ahead of register", "161 256 U8 1 1", "bad 1 1 module 69"),
        bad("register ahead of kind", "15 256 U7 1 1", "bad 1 2 register 0"),
        bad("kind ahead of count", "15 48 U7 241 1", "bad 1 3 kind 69"),
        bad("count ahead of values", "15 48 U8 0 1", "bad 1 4 count 69"),
        bad("values ahead of fit", "15 48 U8 2 256", "bad 1 0 values 69"),
        bad("fit ahead of order", &after("15 48 U8 1 256"), "bad 2 5 fit 43"),
        bad("fit ahead of many", &(many(128) + "2 1 U8 1 256"), "bad 129 5 fit 43"),
        bad("many ahead of order", &(many(128) + "1 0 U8 1 1"), "bad 129 0 many 79"),
        bad("one register twice", &after("15 48 U8 1 2"), "bad 2 0 order 68"),
        bad("a lower register in a text", &after("15 47 U8 1 1"), "bad 2 0 order 68"),
        bad("a lower module in a text", &after("14 49 U8 1 1"), "bad 2 0 order 68"),
        bad("order past a bad line", &after("x\n15 48 U8 1 1"), "bad 2 0 words 0\nbad 3 0 order 68"),
        bad("a bad line is nobody's neighbour", &after("99 0 U8 1 256\n15 49 U8 1 1"), "bad 2 5 fit 43"),
        bad("the nearest may be out of order itself", &after("14 1 U8 1 1\n14 2 U8 1 1"), "bad 2 0 order 68"),
        makes("128 settings in a text", &many(128), &many_sheet(128)),
        bad("129 settings in a text", &many(129), "bad 129 0 many 79"),
        bad("130 settings in a text", &many(130), "bad 129 0 many 79\nbad 130 0 many 79"),
        bad("a bad line is no setting", &("x\n".to_string() + &many(128)), "bad 1 0 words 0"),
        bad(
            "one that is out of order is a setting",
            &("1 0 U8 1 1\n".to_string() + &many(128)),
            "bad 2 0 order 68\nbad 129 0 many 79",
        ),
    ]
}

/// How many bad lines are told, and how long a text may be.
pub fn long_texts() -> Vec<Check> {
    let told =
        |count: usize| (1..=count).map(|line| format!("bad {line} 0 words 0")).collect::<Vec<String>>().join("\n");
    let padded = |length: usize, end: &str| "#".repeat(length - end.len()) + end;
    vec![
        bad("100 bad lines", &"x\n".repeat(100), &told(100)),
        bad("101 bad lines", &"x\n".repeat(101), &(told(100) + "\nmore 1")),
        bad("250 bad lines", &"x\n".repeat(250), &(told(100) + "\nmore 150")),
        makes("262144 bytes of text", &padded(262144, "\n15 48 U16 1 4660"), ONE),
        bad("262144 bytes, the last ones bad", &padded(262144, "\n15 48 U16 1"), "bad 2 0 values 69"),
        bad("262145 bytes of text", &padded(262145, "\n15 48 U16 1"), "long"),
    ]
}

/// The commands that take a sheet: their numbers in order, and what they leave.
pub fn commands() -> Vec<Check> {
    let (two, second) = (&two_sheet()[..], "010001000c000000140000000f3201020000000001ff");
    let damaged = "020001000c000000140000000f300301000000003412";
    let calls = |job, wait, clock| ["calls", job, wait, clock];
    let request = |job, wait, clock| format!("desk.open {job} 15 5 48 3412 {wait} 0 {clock} {}\n", "00".repeat(18));
    let largest = format!("1 0 U8 240{}\n", " 161".repeat(240));
    let largest: String = (0..128).map(|register| largest.replacen("1 0", &format!("1 {register}"), 1)).collect();
    let largest = ended(&["make"], largest.as_bytes()).0;
    let add = |line| ["add", line];
    vec![
        on_sheet("no bytes shown", &["show"], "", "refused 65"),
        on_sheet("another version shown", &["show"], damaged, "refused 66"),
        on_sheet("a byte more shown", &["show"], &format!("{ONE}00"), "refused 70"),
        says("the longest sheet", &["check"], &largest, "settings 128\ndone"),
        says("a byte more than the longest sheet", &["check"], &[&largest[..], &[0]].concat(), "refused 70"),
        says("31757 bytes of 0", &["check"], &[0; 31757], "refused 66"),
        on_sheet("job 0 of requests", &calls("0", "1000", "0"), ONE, "refused 10"),
        writes("job 1, wait 1", &calls("1", "1", "0"), ONE, &request("1", "1", "0")),
        writes(
            "the largest job, wait and clock in hex",
            &calls("0xffffffff", "0xEA60", "0xFFFFFFFF"),
            ONE,
            &request("4294967295", "60000", "4294967295"),
        ),
        on_sheet("a job past 32 bits", &calls("4294967296", "1000", "0"), ONE, "usage"),
        on_sheet("wait 0", &calls("7", "0", "0"), ONE, "refused 14"),
        on_sheet("wait 60001", &calls("7", "60001", "0"), ONE, "refused 14"),
        on_sheet("a wait past 32 bits", &calls("7", "4294967296", "0"), ONE, "usage"),
        on_sheet("a clock past 32 bits", &calls("7", "1000", "4294967296"), ONE, "usage"),
        on_sheet("10 ahead of 14", &calls("0", "0", "0"), ONE, "refused 10"),
        on_sheet("66 ahead of 10", &calls("0", "0", "0"), damaged, "refused 66"),
        on_sheet("14 with nothing to ask for", &calls("7", "0", "0"), EMPTY, "refused 14"),
        gives("a register removed", &["remove", "15", "48"], &bytes(two), second),
        gives("a module removed by hex", &["remove", "0x0F"], &bytes(two), EMPTY),
        on_sheet("no such module to remove", &["remove", "16"], two, "refused 77"),
        on_sheet("no such register to remove", &["remove", "15", "49"], two, "refused 77"),
        on_sheet("module 0 to remove", &["remove", "0"], two, "refused 77"),
        on_sheet("module 255 to remove", &["remove", "255"], two, "refused 77"),
        on_sheet("66 ahead of 77", &["remove", "16"], damaged, "refused 66"),
        gives("a line added behind", &add("15 0x32 U8 2 1 255 # lamp"), &bytes(ONE), two),
        gives("a line added in front", &add("\t15 48 U16 1 4660\r"), &bytes(second), two),
        gives("a line added to the empty sheet", &add("15 48 U16 1 4660"), &bytes(EMPTY), ONE),
        on_sheet("a line without a word", &add(""), ONE, "bad 1 0 words 0"),
        on_sheet("a line that is a remark", &add("# 15 50 U8 1 1"), ONE, "bad 1 0 words 0"),
        on_sheet("66 ahead of a bad line", &add("x"), damaged, "refused 66"),
        on_sheet("a bad line ahead of 78", &add("15 48 U16 1 65536"), ONE, "bad 1 5 fit 43"),
        on_sheet("a register that is there", &add("15 48 U8 1 1"), ONE, "refused 78"),
        gives("the 128th setting", &add("1 127 U8 1 161"), &bytes(&many_sheet(127)), &many_sheet(128)),
        on_sheet("the 129th setting", &add("1 128 U8 1 161"), &many_sheet(128), "refused 79"),
        on_sheet("78 ahead of 79", &add("1 127 U8 1 161"), &many_sheet(128), "refused 78"),
        on_sheet("a bad line ahead of 79", &add("1 128 U8 2 161"), &many_sheet(128), "bad 1 0 values 69"),
    ]
}

/// Arguments that are no command's, whatever the sheet.
pub fn usages() -> Vec<Check> {
    let usage = |name, args: &[&str]| on_sheet(name, args, ONE, "usage");
    vec![
        usage("no argument", &[]),
        usage("an empty argument", &[""]),
        usage("an unknown command", &["Show"]),
        usage("make with a word more", &["make", "1"]),
        usage("calls with two numbers", &["calls", "7", "1000"]),
        usage("calls with four numbers", &["calls", "7", "1000", "0", "0"]),
        usage("calls with no number", &["calls", "7", "1000", "x"]),
        usage("calls with a minus", &["calls", "7", "1000", "-0"]),
        usage("remove without a module", &["remove"]),
        usage("remove with three numbers", &["remove", "15", "48", "49"]),
        usage("remove of module 256", &["remove", "256"]),
        usage("remove of register 256", &["remove", "15", "0x100"]),
        usage("remove with a minus", &["remove", "-15"]),
        usage("add without a line", &["add"]),
        usage("add with a line in words", &["add", "15", "50", "U8", "1", "1"]),
        says("usage ahead of a damaged sheet", &["remove", "x"], b"", "usage"),
    ]
}
