//! One program twice, with poulpy's names and with the crate's `layouts`: only the import differs, and both must tell the
//! same.

use std::panic;

use crate::tally::Tally;

mod rust {
    use poulpy_blas::layouts::*;
    use poulpy_core::layouts::*;

    include!("program.rs");
}

mod ours {
    use sibukyaran::layouts::*;

    include!("program.rs");
}

/// What a call panics with.
fn panicked(call: fn()) -> Option<String> {
    let payload = panic::catch_unwind(call).err()?;
    let text = payload.downcast_ref::<String>().cloned();
    Some(text.or(payload.downcast_ref::<&str>().map(|text| text.to_string())).unwrap_or_default())
}

pub fn compare(tally: &mut Tally) {
    tally.run("the crate's layouts: one program with poulpy's import and with ours, many seeds", |cases| {
        for seed in 0..1_000 {
            for (part, (told, right)) in ours::run(seed).into_iter().zip(rust::run(seed)).enumerate() {
                cases.same(|| format!("seed {seed}, part {part}"), told, right);
            }
        }
    });
    tally.run("the crate's layouts: what poulpy asserts panics, with the refusal's number", |cases| {
        panic::set_hook(Box::new(|_| ()));
        for (at, ((number, ours), (_, rust))) in ours::WRONG.into_iter().zip(rust::WRONG).enumerate() {
            let begins = format!("refused with {number}: ");
            let told = panicked(ours).map(|text| text.chars().take(begins.len()).collect());
            cases.same(|| format!("call {at}"), (told, panicked(rust).is_some()), (Some(begins), true));
        }
        let _ = panic::take_hook();
    });
}
