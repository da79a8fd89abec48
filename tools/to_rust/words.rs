pub fn read_words<'a>(_a: crate::shim::Global, words: &'a [crate::shim::String]) -> Result<Option<Command<'a>>, crate::carp_base::Memory> {
    if !plain::are_plain(words) { return Ok(None) }
    let w: std::vec::Vec<&'a str> = words.iter().map(|x| x.as_str()).collect();
    let num = |name: &str, d: u64| w.iter().position(|x| *x == name).map(|i| w[i+1].parse().unwrap()).unwrap_or(d);
    Ok(Some(match w[0] {
        "solve" => Command::Solve { file: w[1], cert: w[2], turns: num("--turns", 64), seed: num("--seed", 1) },
        "check" => Command::Check { file: w[1], cert: w[2] },
        "sheet" => Command::Sheet { file: w[1], cert: w[2] },
        "make" => Command::Make { file: w[1], seed: num("--seed", 1) },
        "drill" => Command::Drill { turns: num("--turns", 4), seed: num("--seed", 1) },
        "upgrade" => Command::Upgrade { file: w[1], cert: w[2], renewed: w[3] },
        "postman" => Command::Postman { file: w[1] },
        "fleet" => Command::Fleet { file: w[1], turns: num("--turns", 64) },
        "edit" => Command::Edit { file: w[1], cert: w[2], edits: w[3], edited: w[4], carried: w[5] },
        "improve" => Command::Improve { file: w[1], cert: w[2], improved: w[3], turns: num("--turns", 64), seed: num("--seed", 1) },
        _ => unreachable!(),
    }))
}
