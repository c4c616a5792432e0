//! How far each code reaches by each of its rules: the share of frames that are decoded to the word sent, against Eb/N0.
//! Writes docs/range.svg and the table in docs/RANGE.md: `cargo run --release --example range`. The seeds are fixed, so
//! that two runs write the same files.
use desklink::{Batch, Code, DecodeRule, Ldpc, LdpcCode};
use std::fmt::Write;

#[path = "../tests/common/mod.rs"]
mod common;
use common::{noisy, Random};

const FRAMES: usize = 600;
const LIMIT: u16 = 20;
const BATCH: usize = 24;

/// Eb/N0 from 0 dB on, in steps of half a dB.
const STEPS: usize = 19;
const STEP: f64 = 0.5;

/// A way to decide a frame, and the colour of its line.
struct Way {
    name: &'static str,
    rule: DecodeRule,
    limit: u16,
    colour: &'static str,
}

const HARD: Way = Way { name: "hard decisions", rule: DecodeRule::House, limit: 0, colour: "#9a9a9a" };
const SUM_PRODUCT: Way = Way { name: "rule 0, sum-product", rule: DecodeRule::SumProduct, limit: LIMIT, colour: "#1b6ca8" };
const MIN_SUM: Way = Way { name: "rule 1, min-sum", rule: DecodeRule::MinSum, limit: LIMIT, colour: "#d1811c" };
const DEFAULT: Way = Way { name: "rule 3, the default", rule: DecodeRule::House, limit: LIMIT, colour: "#1f7a3d" };
const ORIGINAL: Way = Way { name: "rule 0, the original's", rule: DecodeRule::SumProduct, limit: LIMIT, colour: "#b3261e" };

struct Panel {
    title: &'static str,
    code: Code,
    ways: Vec<Way>,
}

fn panels() -> Vec<Panel> {
    let staircase = |title, code| Panel { title, code: Code::Staircase(code), ways: vec![HARD, MIN_SUM, SUM_PRODUCT, DEFAULT] };
    vec![
        staircase("N512R12, rate 1/2", LdpcCode::N512R12),
        staircase("N576R23, rate 2/3", LdpcCode::N576R23),
        staircase("N512R34, rate 3/4", LdpcCode::N512R34),
        Panel { title: "(174,91), rate 0.52", code: Code::Ft8, ways: vec![HARD, ORIGINAL, DEFAULT] },
    ]
}

// ---- frames

/// A random message and its codeword, one bit a byte.
fn sent(code: Code, random: &mut Random) -> (Vec<u8>, Vec<u8>) {
    let message = random.bits(code.k());
    let Code::Staircase(staircase) = code else { return (message.clone(), ft8_word(&message)) };
    let word = Ldpc::new(staircase).encode(&message).expect("K bytes");
    (message, word)
}

fn ft8_word(message: &[u8]) -> Vec<u8> {
    let mut packed = [0; desklink::K_BYTES];
    message.iter().enumerate().for_each(|(i, bit)| packed[i / 8] |= bit << (7 - i % 8));
    let mut codeword = [0; desklink::N_BYTES];
    desklink::ldpc_encode(&packed, &mut codeword).expect("the low five bits are 0");
    (0..desklink::N).map(|i| codeword[i / 8] >> (7 - i % 8) & 1).collect()
}

/// How many frames are decoded to the message sent, at that Eb/N0. Each way is handed the same frames.
fn found(panel: &Panel, way: &Way, decibels: f64) -> usize {
    let (n, k) = (panel.code.n(), panel.code.k());
    let ratio = 10f64.powf(decibels / 10.0);
    let sigma = (n as f64 / (2.0 * k as f64 * ratio)).sqrt();
    let random = &mut Random(0x0052_414E_4745 + panel.code.number() as u64 + (decibels * 10.0) as u64 * 16);
    let pairs: Vec<[u32; 2]> = (0..BATCH).map(|j| [(j * n) as u32, n as u32]).collect();
    let (mut bits, mut numbers) = (vec![0; BATCH * k], [[0; BATCH]; 3]);
    let mut right = 0;
    for _ in 0..FRAMES / BATCH {
        let frames: Vec<(Vec<u8>, Vec<f32>)> = (0..BATCH)
            .map(|_| {
                let (message, word) = sent(panel.code, random);
                let values = noisy(random, &word, sigma);
                (message, values)
            })
            .collect();
        let values: Vec<f32> = frames.iter().flat_map(|(_, values)| values.clone()).collect();
        let [counts, rounds, firsts] = &mut numbers;
        let batch = Batch { code: panel.code, rule: way.rule, limit: way.limit, values: &values, pairs: &pairs, bits: &mut bits, counts, rounds, firsts };
        batch.decode().expect("a batch of whole frames");
        right += frames.iter().zip(bits.chunks(k)).filter(|((message, _), bits)| message == bits).count();
    }
    right
}

// ---- the picture

const WIDTH: f64 = 460.0;
const HEIGHT: f64 = 320.0;

fn across(decibels: f64) -> f64 {
    58.0 + decibels / ((STEPS - 1) as f64 * STEP) * (WIDTH - 78.0)
}

fn down(share: f64) -> f64 {
    38.0 + (1.0 - share) * (HEIGHT - 102.0)
}

fn axes(svg: &mut String, title: &str) {
    writeln!(svg, "<text x=\"58\" y=\"24\" class=\"title\">{title}</text>").unwrap();
    for tenths in [0, 25, 50, 75, 100] {
        let y = down(f64::from(tenths) / 100.0);
        writeln!(svg, "<line x1=\"58\" x2=\"{:.1}\" y1=\"{y:.1}\" y2=\"{y:.1}\" class=\"grid\"/>", WIDTH - 20.0).unwrap();
        writeln!(svg, "<text x=\"50\" y=\"{:.1}\" class=\"number\" text-anchor=\"end\">{tenths} %</text>", y + 4.0).unwrap();
    }
    for whole in 0..=((STEPS - 1) as f64 * STEP) as usize {
        let x = across(whole as f64);
        writeln!(svg, "<line x1=\"{x:.1}\" x2=\"{x:.1}\" y1=\"{:.1}\" y2=\"{:.1}\" class=\"grid\"/>", down(1.0), down(0.0)).unwrap();
        writeln!(svg, "<text x=\"{x:.1}\" y=\"{:.1}\" class=\"number\" text-anchor=\"middle\">{whole}</text>", down(0.0) + 16.0).unwrap();
    }
    writeln!(svg, "<text x=\"{:.1}\" y=\"{:.1}\" class=\"number\" text-anchor=\"end\">Eb/N0, dB</text>", WIDTH - 20.0, down(0.0) + 31.0).unwrap();
}

fn lines(svg: &mut String, panel: &Panel, shares: &[Vec<usize>]) {
    for (i, (way, right)) in panel.ways.iter().zip(shares).enumerate() {
        let place = |(j, &n): (usize, &usize)| format!("{:.1},{:.1}", across(j as f64 * STEP), down(n as f64 / FRAMES as f64));
        let points: Vec<String> = right.iter().enumerate().map(place).collect();
        writeln!(svg, "<polyline points=\"{}\" fill=\"none\" stroke=\"{}\" stroke-width=\"2.2\"/>", points.join(" "), way.colour).unwrap();
        let (x, y) = (58.0 + (i % 2) as f64 * 150.0, HEIGHT - 24.0 + (i / 2) as f64 * 16.0);
        writeln!(svg, "<line x1=\"{x:.1}\" x2=\"{:.1}\" y1=\"{y:.1}\" y2=\"{y:.1}\" stroke=\"{}\" stroke-width=\"3\"/>", x + 14.0, way.colour).unwrap();
        writeln!(svg, "<text x=\"{:.1}\" y=\"{:.1}\" class=\"key\">{}</text>", x + 19.0, y + 4.0, way.name).unwrap();
    }
}

fn picture(results: &[(Panel, Vec<Vec<usize>>)]) -> String {
    let mut svg = format!("<svg xmlns=\"http://www.w3.org/2000/svg\" viewBox=\"0 0 {} {}\" font-family=\"sans-serif\">\n", 2.0 * WIDTH, 2.0 * HEIGHT + 12.0);
    svg += "<style>.title{font-size:14px;font-weight:bold;fill:#222}.number{font-size:11px;fill:#555}.key{font-size:10.5px;fill:#222}";
    svg += ".grid{stroke:#e2e2e2;stroke-width:1}</style>\n<rect width=\"100%\" height=\"100%\" fill=\"white\"/>\n";
    for (i, (panel, shares)) in results.iter().enumerate() {
        let (x, y) = ((i % 2) as f64 * WIDTH, (i / 2) as f64 * (HEIGHT + 6.0));
        writeln!(svg, "<g transform=\"translate({x} {y})\">").unwrap();
        axes(&mut svg, panel.title);
        lines(&mut svg, panel, shares);
        svg += "</g>\n";
    }
    svg + "</svg>\n"
}

// ---- the table

fn table(results: &[(Panel, Vec<Vec<usize>>)]) -> String {
    let mut text = String::new();
    for (panel, shares) in results {
        writeln!(text, "\n**{}**\n", panel.title).unwrap();
        let names: Vec<&str> = panel.ways.iter().map(|way| way.name).collect();
        writeln!(text, "| Eb/N0, dB | {} |\n|---{}|", names.join(" | "), "|---".repeat(names.len())).unwrap();
        for i in 0..STEPS {
            let row: Vec<String> = shares.iter().map(|right| format!("{:.1}", 100.0 * right[i] as f64 / FRAMES as f64)).collect();
            writeln!(text, "| {:.1} | {} |", i as f64 * STEP, row.join(" | ")).unwrap();
        }
    }
    text
}

fn main() {
    let results: Vec<(Panel, Vec<Vec<usize>>)> = panels()
        .into_iter()
        .map(|panel| {
            let shares = panel.ways.iter().map(|way| (0..STEPS).map(|i| found(&panel, way, i as f64 * STEP)).collect()).collect();
            (panel, shares)
        })
        .collect();
    let docs = std::path::Path::new(env!("CARGO_MANIFEST_DIR")).join("../docs");
    std::fs::write(docs.join("range.svg"), picture(&results)).expect("docs can be written");
    let page = std::fs::read_to_string(docs.join("RANGE.md")).expect("docs/RANGE.md is there");
    let (head, _) = page.split_once("\n## The numbers\n").expect("docs/RANGE.md has its numbers last");
    let said = format!("\nPer cent of {FRAMES} frames that were decoded to the message sent, {LIMIT} rounds at most.\n");
    std::fs::write(docs.join("RANGE.md"), format!("{head}\n## The numbers\n{said}{}", table(&results))).expect("docs can be written");
}
