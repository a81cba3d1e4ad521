// A yardstick for speed: the same whole-number step over a grid of cells with std threads, unverified; rustc -O -C target-cpu=native yardstick.rs
// yardstick THREADS < deck > stream of version 1, byte for byte that of `plain`; it reads decks as `generate` writes them, one number a line, and prints the seconds of its steps on standard error.
use std::io::{Read, Write};
const C: u128 = 166_886;
#[derive(Clone)]
struct P {
    mass: u32,
    h: u32,
    x0: [u32; 3],
    t0: u32,
    p: [i128; 3],
    q: [i128; 3],
    f: [i128; 3],
    rho: u64,
    g: u64,
    bin: u32,
}
#[derive(Default)]
struct D {
    ticks: u32,
    every: u32,
    bin_min: u32,
    bin_max: u32,
    sound: u32,
    shift: u32,
    accuracy: u32,
    ps: Vec<P>,
}
fn mini(a: u32, b: u32) -> i32 {
    ((a.wrapping_sub(b).wrapping_add(1 << 19)) & 0xfffff) as i32 - (1 << 19)
}
fn root(r2: u64, h: u32) -> u64 {
    let q = (r2 << 20) / (h as u64 * h as u64);
    let mut s = (q as f64).sqrt() as u64;
    while s * s > q {
        s -= 1
    }
    while (s + 1) * (s + 1) <= q {
        s += 1
    }
    s
}
fn main() {
    let th: usize = std::env::args().nth(1).unwrap().parse().unwrap();
    let mut s = String::new();
    std::io::stdin().read_to_string(&mut s).unwrap();
    let mut d = D::default();
    for l in s.lines() {
        if l.starts_with("[[") {
            d.ps.push(P {
                mass: 0,
                h: 0,
                x0: [0; 3],
                t0: 0,
                p: [0; 3],
                q: [0; 3],
                f: [0; 3],
                rho: 0,
                g: 0,
                bin: 0,
            });
            continue;
        }
        let Some((k, v)) = l.split_once(" = ") else {
            continue;
        };
        let v: i128 = v.parse().unwrap();
        let n = v as u32;
        match k {
            "ticks" => d.ticks = n,
            "every" => d.every = n,
            "bin_min" => d.bin_min = n,
            "bin_max" => d.bin_max = n,
            "sound" => d.sound = n,
            "shift" => d.shift = n,
            "accuracy" => d.accuracy = n,
            "leaf" | "pairs" | "slack" => {}
            _ => {
                let p = d.ps.last_mut().unwrap();
                match k {
                    "mass" => p.mass = n,
                    "h" => p.h = n,
                    "x" => p.x0[0] = n,
                    "y" => p.x0[1] = n,
                    "z" => p.x0[2] = n,
                    "px" => p.p[0] = v,
                    "py" => p.p[1] = v,
                    _ => p.p[2] = v,
                }
            }
        }
    }
    let w: Vec<u128> = (0..=1024i128)
        .map(|s| {
            (if s <= 512 {
                (1i128 << 30) - 6144 * s * s + 6 * s * s * s
            } else {
                2 * (1024 - s).pow(3)
            }) as u128
        })
        .collect();
    let u: Vec<u128> = (0..=1024u128)
        .map(|s| {
            if s <= 512 {
                12288 - 18 * s
            } else {
                6 * (1024 - s) * (1024 - s) / s
            }
        })
        .collect();
    let n = d.ps.len();
    let hmax = d.ps.iter().map(|p| p.h).max().unwrap();
    let side = ((1u32 << 20) / hmax).clamp(1, 64);
    let cw = ((1u32 << 20) + side - 1) / side;
    let mut ps = std::mem::take(&mut d.ps);
    let mut out: Vec<u8> = vec![];
    let mut t = 0u32;
    let t00 = std::time::Instant::now();
    loop {
        let x: Vec<[u32; 3]> = ps
            .iter()
            .map(|p| {
                std::array::from_fn(|k| {
                    let m = (p.p[k] * (t - p.t0) as i128).div_euclid((p.mass as i128) << d.shift);
                    ((p.x0[k] as i128 + m) & 0xfffff) as u32
                })
            })
            .collect();
        let due: Vec<bool> = ps.iter().map(|p| t % (1 << p.bin) == 0).collect();
        let cell = |x: [u32; 3]| -> usize {
            let c = |v: u32| (v / cw).min(side - 1) as usize;
            (c(x[0]) * side as usize + c(x[1])) * side as usize + c(x[2])
        };
        let nc = (side * side * side) as usize;
        let mut start = vec![0u32; nc + 1];
        for &v in &x {
            start[cell(v) + 1] += 1;
        }
        for i in 0..nc {
            start[i + 1] += start[i];
        }
        let mut fill = start.clone();
        let mut ord = vec![0u32; n];
        for i in 0..n {
            let c = cell(x[i]);
            ord[fill[c] as usize] = i as u32;
            fill[c] += 1;
        }
        let sx: Vec<[u32; 3]> = ord.iter().map(|&i| x[i as usize]).collect();
        let sm: Vec<u32> = ord.iter().map(|&i| ps[i as usize].mass).collect();
        let sh: Vec<u32> = ord.iter().map(|&i| ps[i as usize].h).collect();
        let near = |v: [u32; 3], f: &mut dyn FnMut(usize)| {
            let si = side as i32;
            let c: [i32; 3] = std::array::from_fn(|k| ((v[k] / cw).min(side - 1)) as i32);
            let r = |c: i32| -> Vec<i32> {
                let mut a: Vec<i32> = (-1..=1).map(|o| (c + o).rem_euclid(si)).collect();
                a.sort();
                a.dedup();
                a
            };
            for a in r(c[0]) {
                for b in r(c[1]) {
                    for e in r(c[2]) {
                        let k = ((a * si + b) * si + e) as usize;
                        for j in start[k]..start[k + 1] {
                            f(j as usize)
                        }
                    }
                }
            }
        };
        let par = |f: &(dyn Fn(usize) -> (u64, [i128; 3]) + Sync)| -> Vec<(u64, [i128; 3])> {
            let ch = n.div_ceil(th);
            let mut r = vec![(0, [0; 3]); n];
            std::thread::scope(|s| {
                for (k, o) in r.chunks_mut(ch).enumerate() {
                    s.spawn(move || {
                        for (i, v) in o.iter_mut().enumerate() {
                            *v = f(k * ch + i)
                        }
                    });
                }
            });
            r
        };
        let dn = par(&|k| {
            let i = ord[k] as usize;
            if !due[i] {
                return (ps[i].rho, [0; 3]);
            }
            let (h, xi) = (ps[i].h, sx[k]);
            let h2 = h as u64 * h as u64;
            let h3 = (h as u128).pow(3);
            let mut rho = 0u64;
            near(xi, &mut |j| {
                let r2: u64 = (0..3)
                    .map(|a| {
                        let e = mini(xi[a], sx[j][a]) as i64;
                        (e * e) as u64
                    })
                    .sum();
                if r2 < h2 {
                    rho += (((sm[j] as u128 * C * w[root(r2, h) as usize]) << 8) / h3) as u64;
                }
            });
            (rho, [0; 3])
        });
        let mut g = vec![0u64; n];
        for k in 0..n {
            let i = ord[k] as usize;
            if due[i] {
                ps[i].rho = dn[k].0;
                ps[i].g = (((d.sound as u128) << 30) / dn[k].0 as u128) as u64;
            }
            g[k] = ps[i].g;
        }
        let fo = par(&|k| {
            let i = ord[k] as usize;
            if !due[i] {
                return (0, [0; 3]);
            }
            let (h, xi, mi, gi) = (ps[i].h, sx[k], ps[i].mass as u128, g[k] as u128);
            let h2 = h as u64 * h as u64;
            let mut f = [0i128; 3];
            near(xi, &mut |j| {
                if j == k {
                    return;
                }
                let e: [i64; 3] = std::array::from_fn(|a| mini(xi[a], sx[j][a]) as i64);
                let r2 = (e[0] * e[0] + e[1] * e[1] + e[2] * e[2]) as u64;
                let hj = sh[j];
                let hj2 = hj as u64 * hj as u64;
                let mut kk = 0u128;
                let mm = mi * sm[j] as u128;
                if r2 < h2 {
                    kk += ((mm * gi * C * u[root(r2, h) as usize]) << 20) / (h as u128).pow(5)
                }
                if r2 < hj2 {
                    kk += ((mm * g[j] as u128 * C * u[root(r2, hj) as usize]) << 20) / (hj as u128).pow(5)
                }
                if kk > 0 {
                    for a in 0..3 {
                        f[a] += kk as i128 * e[a] as i128
                    }
                }
            });
            (0, f)
        });
        for k in 0..n {
            let i = ord[k] as usize;
            if !due[i] {
                continue;
            }
            let f = fo[k].1;
            let p = &mut ps[i];
            let old = p.bin;
            let fm = f.iter().map(|v| v.unsigned_abs()).max().unwrap();
            let mut b = d.bin_min;
            for c in d.bin_min..=d.bin_max {
                if t % (1 << c) == 0
                    && (c == d.bin_min || fm << (2 * c) <= d.accuracy as u128 * p.mass as u128 * p.h as u128)
                {
                    b = c
                }
            }
            for a in 0..3 {
                p.q[a] = if t == 0 { p.p[a] } else { p.p[a] + (f[a] << old) };
                p.p[a] = p.q[a] + (f[a] << b);
            }
            p.f = f;
            p.x0 = x[i];
            p.t0 = t;
            p.bin = b;
        }
        if t % d.every == 0 {
            out.extend(b"SPHSNAP1");
            out.extend(t.to_le_bytes());
            out.extend((n as u32).to_le_bytes());
            for (i, p) in ps.iter().enumerate() {
                for v in [i as u32 + 1, p.mass, p.h, p.x0[0], p.x0[1], p.x0[2]] {
                    out.extend(v.to_le_bytes())
                }
                for a in 0..3 {
                    out.extend(p.q[a].to_le_bytes())
                }
                out.extend(p.rho.to_le_bytes());
                out.extend(p.bin.to_le_bytes());
            }
        }
        if t >= d.ticks {
            break;
        }
        t += 1 << d.bin_min;
    }
    eprintln!("steps {:.3} s", t00.elapsed().as_secs_f64());
    out.extend(b"SPHSNEND");
    std::io::stdout().write_all(&out).unwrap();
}
