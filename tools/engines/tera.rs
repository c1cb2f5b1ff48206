//! work SOURCE DATA PARTIALS COUNT TEXT: as compare-engines says. The templates are named as files of html, so values are escaped.
use std::collections::BTreeMap;
use std::fs;
use std::time::Instant;

fn main() {
    let words: Vec<String> = std::env::args().collect();
    let source = fs::read_to_string(&words[1]).unwrap();
    let data: serde_json::Value = serde_json::from_str(&fs::read_to_string(&words[2]).unwrap()).unwrap();
    let partials: BTreeMap<String, String> = serde_json::from_str(&fs::read_to_string(&words[3]).unwrap()).unwrap();
    let count: u32 = words[4].parse().unwrap();
    let mut templates: Vec<(String, String)> = partials
        .into_iter()
        .map(|(name, partial)| (format!("{name}.html"), partial))
        .collect();
    templates.push(("work.html".to_string(), source));
    let mut tera = tera::Tera::default();
    tera.add_raw_templates(templates).unwrap();
    let context = tera::Context::from_value(data).unwrap();
    let mut least = f64::INFINITY;
    let mut answer = String::new();
    for run in 0..2 * count {
        let start = Instant::now();
        answer = tera.render("work.html", &context).unwrap();
        let taken = start.elapsed().as_secs_f64() * 1e3;
        if run >= count {
            least = least.min(taken);
        }
    }
    fs::write(&words[5], answer).unwrap();
    println!("{least}");
}
