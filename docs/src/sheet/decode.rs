//! Decoding (01, "Exponents" and "Decode").
//!
//!   decode  the table, or the first refusal number that fits

use super::interpolate::interpolated;
use super::job_call::{first_tests, JobCall};
use super::plan::{choose, Job, Layout};

/// The table, row by row, or the first refusal number that fits.
pub fn decode(call: &JobCall) -> Result<Vec<u32>, u32> {
    let q = first_tests(call)?;
    if call.room != (call.job.t * call.job.r) as usize {
        return Err(13);
    }
    let layout = choose(&call.job);
    let heard = call.heard_hosts();
    if heard.len() < layout.needed as usize {
        return Err(24);
    }
    let block = |host: u32| &call.store[call.block(host)];
    if heard
        .iter()
        .any(|&host| block(host).iter().any(|&x| x >= q))
    {
        return Err(14);
    }
    let used = &heard[..layout.needed as usize];
    let points: Vec<u32> = used.iter().map(|&i| call.points[i as usize - 1]).collect();
    let blocks: Vec<&[u32]> = used.iter().map(|&host| block(host)).collect();
    Ok(placed(
        &call.job,
        &layout,
        &interpolated(&points, &blocks, q),
    ))
}

/// The table whose block C(k,j) is the coefficient at its place.
fn placed(job: &Job, layout: &Layout, coefficients: &[Vec<u32>]) -> Vec<u32> {
    let (rows, columns) = (job.t / job.m, job.r / job.n);
    let cells = (0..job.t).flat_map(|row| (0..job.r).map(move |column| (row, column)));
    let element = |(row, column): (u32, u32)| {
        let (k, j) = (row / rows, column / columns);
        let place = layout.places[(k * job.n + j) as usize];
        let within = row % rows * columns + column % columns;
        coefficients[place as usize][within as usize]
    };
    cells.map(element).collect()
}
