//! The largest calls in a thread with 256 KB of stack, as much as the header asks for.

use juplatsk::*;
use std::thread;

const STACK: usize = 256 * 1024;

fn in_a_small_thread(call: impl FnOnce() + Send + 'static) {
    thread::Builder::new().stack_size(STACK).spawn(call).unwrap().join().unwrap();
}

/// A square with 1,024 points on each side.
fn square() -> BoundaryCurves {
    let along = |k: usize| k as f64 / 1023.0;
    let side = |point: fn(f64) -> Point| (0..1024).map(|k| point(along(k))).collect();
    BoundaryCurves { bottom: side(|t| [t, 0.0]), right: side(|t| [1.0, t]), top: side(|t| [1.0 - t, 1.0]), left: side(|t| [0.0, 1.0 - t]) }
}

/// 128 regions whose 256 constraints join 256 edges in one ring, so that a search goes through all of them. It makes 511 expansions: no call goes
/// deeper, whatever its limit, and none here is cut.
fn ring() -> Vec<Region> {
    (0..128).map(|k| Region::new([vec![2 * k], vec![2 * k + 1], vec![2 * k + 1], vec![(2 * k + 2) % 256]])).collect()
}

#[test]
fn solver() {
    in_a_small_thread(|| {
        let (ideals, ranges) = ([2.0; 256], vec![2.0..=3.0; 256]);
        let solved = || Ok(Solved { counts: vec![2; 256], moves: 2 });
        for limit in [SearchLimit::Default, SearchLimit::Expansions(100_000)] {
            let mut counts = [0; 256];
            assert_eq!(round(&ring(), &ideals, &mut counts, limit).map(|made| (made.cost.is_some(), made.cut)), Ok((true, false)));
            assert_eq!(counts, [1; 256]);
            assert_eq!(round_within(&ring(), &ranges, &mut counts, limit).map(|made| (made.cost.is_some(), made.cut)), Ok((true, false)));
            assert_eq!(counts, [2; 256]);
            assert_eq!(solve(&ring(), &ideals, limit), solved());
            assert_eq!(solve_within(&ring(), &ranges, limit), solved());
            assert_eq!(constraints_hold(&ring(), &counts), Ok(true));
        }
    });
}

#[test]
fn geometry() {
    in_a_small_thread(|| {
        let even: Vec<f64> = (0..=1024).map(|k| f64::from(k) / 1024.0).collect();
        let slanted: Vec<f64> = even.iter().map(|t| t * (0.9 + 0.1 * t)).collect();
        assert_eq!(coons_from_parameters(&square(), &even, &slanted, &even, &slanted).unwrap().len(), 1024 * 1024);
        assert_eq!(mesh_tile_curves(&square(), 1024, 1024).unwrap().cells.len(), 1024 * 1024);
        let tile = Region::new([0, 32, 64, 96].map(|first| (first..first + 32).collect()));
        let breaks: Vec<f64> = (0..=32).map(|k| f64::from(k) / 32.0).collect();
        assert_eq!(lay_region(&tile, &[32; 128], [&breaks; 4], &square()).unwrap().len(), 1024 * 1024);
        let curves = square();
        let mut boundary = [curves.bottom, curves.right, curves.top, curves.left].concat();
        // not just where the loop began, so that it stays
        boundary[4095] = [0.0, 1e-12];
        assert_eq!(mesh_tile(&boundary, 1024, 1024).unwrap().points.len(), 1025 * 1025);
    });
}
