//! Texts of many paragraphs, with each option, and where memory runs out.
use textwrap_proved::reflow::{reflow, Algorithm, ReflowOptions};
use textwrap_proved::wrap_algorithms::Penalties;
use textwrap_proved::{fallible, LineEnding};

/// A mail with a quote, a list and a signature.
const MAIL: &str = "Hello,\n\n> one two three four\n> five\nsix seven eight nine ten\n\n\
                    - one two three four\n  five\n\n-- \nA. B.\n";

#[test]
fn a_mail_is_filled_with_what_it_quotes() {
    let filled = "Hello,\n\n> one two three\n> four five\nsix seven eight\nnine ten\n\n\
                  - one two three\n  four five\n\n-- \nA. B.\n";
    assert_eq!(reflow(MAIL, 16), filled);
    assert_eq!(reflow(filled, 16), filled);
    assert_eq!(reflow(MAIL, &ReflowOptions::new(16)), filled);
    assert_eq!(fallible::reflow(MAIL, 16).as_deref(), Ok(filled));
    assert_eq!(reflow("", 16), "");
}

#[test]
fn each_option_has_its_effect() {
    let options = ReflowOptions::new(16);
    let quote = "> one two six ten red blue\n";
    assert_eq!(reflow(quote, options.justify(true)), "> one   two  six\n> ten red blue\n");
    assert_eq!(reflow(quote, options.width(24)), "> one two six ten red\n> blue\n");
    assert_eq!(reflow("one\n==\n", options.ending(Some(LineEnding::CRLF))), "one\r\n==\r\n");
    assert_eq!(reflow("one\r\n==\r\n", options.ending(Some(LineEnding::LF))), "one\n==\n");
    let heading = "# One two three four\n";
    assert_eq!(reflow(heading, options), "# One two three\n# four\n");
    assert_eq!(reflow(heading, options.markdown(true)), heading);
    let comment = "/* one two three four */\n";
    assert_eq!(reflow(comment, options), "/* one two three\n * four */\n");
    assert_eq!(reflow(comment, options.bare(true)), "/* one two three\n   four */\n");
    let deeper = "one\n\n    two three four five\n";
    assert_eq!(reflow(deeper, options), deeper);
    assert_eq!(reflow(deeper, options.indented(true)), "one\n\n    two three\n    four five\n");
    let marked = "dnl one two three four\ndnl five\n";
    let markers = ["!", "dnl"];
    let filled = "dnl one two\ndnl three four\ndnl five\n";
    assert_eq!(reflow(marked, options.markers(&markers)), filled);
    let only = options.markers(&markers).prefixes(&markers[..1]);
    assert_eq!(reflow(marked, only), marked);
}

#[test]
fn words_are_divided_by_the_algorithm() {
    let text = "To be, or not to be: that is the question\n";
    let by = |penalties| ReflowOptions::new(10).algorithm(Algorithm::LeastCost(penalties));
    let penalties = Penalties::new();
    assert_eq!(reflow(text, 10), "To be, or\nnot to be:\nthat is\nthe\nquestion\n");
    let cheapest = "To be, or\nnot to be:\nthat\nis the\nquestion\n";
    assert_eq!(reflow(text, by(penalties)), cheapest);
    // Each line costs so much that there is one.
    let one = Penalties { nline_penalty: 1_000_000, ..penalties };
    assert_eq!(reflow(text, by(one)), text);
}

#[test]
fn a_large_text_is_filled() {
    let many = 20_000;
    let text = "> one two three four\n> five\n\n".repeat(many);
    assert_eq!(reflow(&text, 16), "> one two three\n> four five\n\n".repeat(many));
    let options = ReflowOptions::new(16).justify(true);
    assert_eq!(reflow(&text, options), "> one  two three\n> four five\n\n".repeat(many));
}
