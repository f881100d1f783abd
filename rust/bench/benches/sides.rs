//! All cases on every side there is, one side after the other in each case.
#![allow(missing_docs)]

use bench::{Case, Rust, Side, cases};
use criterion::{BenchmarkId, Criterion, criterion_group, criterion_main};
use std::time::Duration;

fn measure(criterion: &mut Criterion, case: &mut Case, side: &str) {
    let mut group = criterion.benchmark_group(case.id.as_str());
    if case.table == "keeper" {
        // Keepers are made anew for each batch, which takes far longer than it.
        group.warm_up_time(Duration::from_millis(10));
        group.measurement_time(Duration::from_millis(30));
    }
    group.bench_function(BenchmarkId::from_parameter(side), |bencher| {
        bencher.iter_custom(|iterations| {
            let measured = (case.run)(iterations);
            // Whole batches were run; answer for as many calls as asked for.
            measured
                .time
                .mul_f64(iterations as f64 / measured.calls as f64)
        });
    });
    group.finish();
}

fn sides(criterion: &mut Criterion) {
    #[cfg(feature = "product")]
    let mut product = cases::<bench::Rattle>().into_iter();
    for mut case in cases::<Rust>() {
        measure(criterion, &mut case, Rust::NAME);
        #[cfg(feature = "product")]
        if let Some(mut case) = product.next() {
            measure(criterion, &mut case, bench::Rattle::NAME);
        }
    }
}

criterion_group! {
    name = benches;
    config = Criterion::default()
        .sample_size(50)
        // The tables need the samples and no more.
        .nresamples(1_000)
        .warm_up_time(Duration::from_millis(100))
        .measurement_time(Duration::from_millis(300));
    targets = sides
}
criterion_main!(benches);
