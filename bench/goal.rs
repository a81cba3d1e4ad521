// A goal for speed: the same whole-number step with reciprocals in place of divisions, flat arrays, a grid of cells and std threads, unverified; rustc -O --edition 2021 -C target-cpu=native goal.rs
// goal THREADS < deck > stream of version 1, byte for byte that of `plain`; it reads decks as `generate` writes them, one number a line, and prints the seconds of its steps on standard error.
use std::io::{Read, Write};
const C: u64 = 166_886;
#[derive(Clone)]
struct P {
    mass: u32,
    h: u32,
    x0: [u32; 3],
    t0: u32,
    p: [i128; 3],
    q: [i128; 3],
    f: [i128; 3],
    rho: u64,
    g: u64,
    bin: u32,
}
#[derive(Default)]
struct D {
    ticks: u32,
    every: u32,
    bin_min: u32,
    bin_max: u32,
    sound: u32,
    shift: u32,
    accuracy: u32,
    ps: Vec<P>,
}
#[inline(always)]
fn mini(a: i32, b: i32) -> i32 {
    (a.wrapping_sub(b) << 12) >> 12
}
// per length: reciprocals; per particle and step: the force's whole and broken part
#[derive(Clone, Copy)]
struct L {
    h2: u64,
    h3: u64,
    m3: u64,
    m2: u64,
}
#[inline(always)]
fn hi(a: u64, b: u64) -> u64 {
    ((a as u128 * b as u128) >> 64) as u64
}
#[inline(always)]
fn root(q: u64, t: &[u16]) -> usize {
    if q < 4096 {
        return t[q as usize] as usize;
    }
    let mut s = ((t[(q >> 8) as usize] as u64) << 4) as usize;
    while ((s + 1) * (s + 1)) as u64 <= q {
        s += 1
    }
    s
}
#[inline(always)]
fn sq(r2: u64, l: &L) -> u64 {
    // floor(2^20 r2 / h2), r2 < h2 < 2^34
    let n = r2 << 20;
    let mut q = hi(n, l.m2);
    let mut r = n.wrapping_sub(q.wrapping_mul(l.h2));
    while r >= l.h2 {
        q += 1;
        r -= l.h2
    }
    q
}
#[inline(always)]
fn dens(a: u64, l: &L) -> u64 {
    // floor(a 2^8 / h3), a < 2^64
    let mut q = hi(a, l.m3);
    let r = (a << 8).wrapping_sub(q.wrapping_mul(l.h3));
    if r >= l.h3 {
        q += 1
    }
    q
}
#[derive(Clone, Copy, Default)]
struct F {
    q: u128,
    r: u128,
    h5: u128,
    phi: u64,
}
#[inline(always)]
fn forc(f: &F, t: u64) -> u128 {
    // floor(B 2^20 t / h5)
    let m = f.phi as u128 * t as u128;
    let mut e = (m >> 64) as u64;
    let lo = m as u64;
    if lo.checked_add(t).is_none() {
        if f.r * t as u128 - e as u128 * f.h5 >= f.h5 {
            e += 1
        }
    }
    f.q * t as u128 + e as u128
}
fn main() {
    let th: usize = std::env::args().nth(1).unwrap().parse().unwrap();
    let mut s = String::new();
    std::io::stdin().read_to_string(&mut s).unwrap();
    let mut d = D::default();
    for l in s.lines() {
        if l.starts_with("[[") {
            d.ps.push(P {
                mass: 0,
                h: 0,
                x0: [0; 3],
                t0: 0,
                p: [0; 3],
                q: [0; 3],
                f: [0; 3],
                rho: 0,
                g: 0,
                bin: 0,
            });
            continue;
        }
        let Some((k, v)) = l.split_once(" = ") else {
            continue;
        };
        let v: i128 = v.parse().unwrap();
        let n = v as u32;
        match k {
            "ticks" => d.ticks = n,
            "every" => d.every = n,
            "bin_min" => d.bin_min = n,
            "bin_max" => d.bin_max = n,
            "sound" => d.sound = n,
            "shift" => d.shift = n,
            "accuracy" => d.accuracy = n,
            "leaf" | "pairs" | "slack" => {}
            _ => {
                let p = d.ps.last_mut().unwrap();
                match k {
                    "mass" => p.mass = n,
                    "h" => p.h = n,
                    "x" => p.x0[0] = n,
                    "y" => p.x0[1] = n,
                    "z" => p.x0[2] = n,
                    "px" => p.p[0] = v,
                    "py" => p.p[1] = v,
                    _ => p.p[2] = v,
                }
            }
        }
    }
    let w: Vec<u64> = (0..=1024i64)
        .map(|s| {
            (if s <= 512 {
                (1i64 << 30) - 6144 * s * s + 6 * s * s * s
            } else {
                2 * (1024 - s).pow(3)
            }) as u64
        })
        .collect();
    let u: Vec<u64> = (0..=1024u64)
        .map(|s| {
            if s <= 512 {
                12288 - 18 * s
            } else {
                6 * (1024 - s) * (1024 - s) / s
            }
        })
        .collect();
    let rt: Vec<u16> = (0..4096u64)
        .map(|q| {
            let mut s = 0u64;
            while (s + 1) * (s + 1) <= q {
                s += 1
            }
            s as u16
        })
        .collect();
    let n = d.ps.len();
    let hmax = d.ps.iter().map(|p| p.h).max().unwrap();
    let side = ((1u32 << 20) / hmax).clamp(1, 64);
    let cw = ((1u32 << 20) + side - 1) / side;
    let mut ps = std::mem::take(&mut d.ps);
    let mut out: Vec<u8> = vec![];
    let mut t = 0u32;
    let t00 = std::time::Instant::now();
    loop {
        let x: Vec<[i32; 3]> = ps
            .iter()
            .map(|p| {
                std::array::from_fn(|k| {
                    let m = (p.p[k] * (t - p.t0) as i128).div_euclid((p.mass as i128) << d.shift);
                    ((p.x0[k] as i128 + m) & 0xfffff) as i32
                })
            })
            .collect();
        let due: Vec<bool> = ps.iter().map(|p| t % (1 << p.bin) == 0).collect();
        let si = side as i32;
        let cell = |x: [i32; 3]| -> usize {
            let c = |v: i32| (v as u32 / cw).min(side - 1) as usize;
            (c(x[0]) * side as usize + c(x[1])) * side as usize + c(x[2])
        };
        let nc = (side * side * side) as usize;
        let mut start = vec![0u32; nc + 1];
        for &v in &x {
            start[cell(v) + 1] += 1;
        }
        for i in 0..nc {
            start[i + 1] += start[i];
        }
        let mut fill = start.clone();
        let mut ord = vec![0u32; n];
        for i in 0..n {
            let c = cell(x[i]);
            ord[fill[c] as usize] = i as u32;
            fill[c] += 1;
        }
        let xs: Vec<[i32; 3]> = ord.iter().map(|&i| x[i as usize]).collect();
        let sm: Vec<u64> = ord.iter().map(|&i| ps[i as usize].mass as u64).collect();
        let ls: Vec<L> = ord
            .iter()
            .map(|&i| {
                let h = ps[i as usize].h as u64;
                let h2 = h * h;
                let h3 = h2 * h;
                L {
                    h2,
                    h3,
                    m3: ((1u128 << 72) / h3 as u128) as u64,
                    m2: ((1u128 << 64) / h2 as u128) as u64,
                }
            })
            .collect();
        let nb: Vec<Vec<(usize, usize)>> = (0..nc)
            .map(|k| {
                let k = k as i32;
                let c = [k / (si * si), k / si % si, k % si];
                let r = |c: i32| -> Vec<i32> {
                    let mut a: Vec<i32> = (-1..=1).map(|o| (c + o).rem_euclid(si)).collect();
                    a.sort();
                    a.dedup();
                    a
                };
                let mut v: Vec<(usize, usize)> = vec![];
                for a in r(c[0]) {
                    for b in r(c[1]) {
                        for e in r(c[2]) {
                            let k = ((a * si + b) * si + e) as usize;
                            let z = (start[k] as usize, start[k + 1] as usize);
                            match v.last_mut() {
                                Some(l) if l.1 == z.0 => l.1 = z.1,
                                _ => v.push(z),
                            }
                        }
                    }
                }
                v
            })
            .collect();
        let par = |f: &(dyn Fn(usize, usize) -> Vec<(u64, [i128; 3])> + Sync)| -> Vec<(u64, [i128; 3])> {
            let mut cuts = vec![0usize];
            for k in 1..th {
                let want = n * k / th;
                cuts.push(start.partition_point(|&v| (v as usize) < want).min(nc));
            }
            cuts.push(nc);
            std::thread::scope(|s| {
                let hs: Vec<_> = cuts
                    .windows(2)
                    .map(|c| {
                        let (a, b) = (c[0], c[1]);
                        s.spawn(move || f(a, b))
                    })
                    .collect();
                hs.into_iter().flat_map(|h| h.join().unwrap()).collect()
            })
        };
        let h2m: Vec<u64> = ls.iter().map(|l| l.h2).collect();
        let dn = par(&|a, b| {
            let mut o = vec![];
            let mut hit: Vec<(u32, u64)> = vec![];
            for c in a..b {
                for k in start[c] as usize..start[c + 1] as usize {
                    let i = ord[k] as usize;
                    if !due[i] {
                        o.push((ps[i].rho, [0; 3]));
                        continue;
                    }
                    let (xi, l) = (xs[k], ls[k]);
                    hit.clear();
                    for &(f, e) in &nb[c] {
                        for j in f..e {
                            let xj = xs[j];
                            let (dx, dy, dz) = (
                                mini(xi[0], xj[0]) as i64,
                                mini(xi[1], xj[1]) as i64,
                                mini(xi[2], xj[2]) as i64,
                            );
                            let r2 = (dx * dx + dy * dy + dz * dz) as u64;
                            if r2 < l.h2 {
                                hit.push((j as u32, r2))
                            }
                        }
                    }
                    let mut rho = 0;
                    for &(j, r2) in &hit {
                        rho += dens(sm[j as usize] * C * w[root(sq(r2, &l), &rt)], &l)
                    }
                    o.push((rho, [0; 3]))
                }
            }
            o
        });
        for k in 0..n {
            let i = ord[k] as usize;
            if due[i] {
                ps[i].rho = dn[k].0;
                ps[i].g = (((d.sound as u128) << 30) / dn[k].0 as u128) as u64;
            }
        }
        let fs: Vec<F> = (0..n)
            .map(|k| {
                let i = ord[k] as usize;
                let p = &ps[i];
                let b = (p.mass as u128 * p.g as u128 * C as u128) << 20;
                let h5 = ls[k].h3 as u128 * ls[k].h2 as u128;
                let (q, r) = (b / h5, b % h5);
                let phi = {
                    let mut v = 0u64;
                    let mut z = r;
                    for _ in 0..64 {
                        z <<= 1;
                        v <<= 1;
                        if z >= h5 {
                            z -= h5;
                            v |= 1
                        }
                    }
                    v
                };
                F { q, r, h5, phi }
            })
            .collect();
        let fo = par(&|a, b| {
            let mut o = vec![];
            let mut hit: Vec<(u32, u64)> = vec![];
            for c in a..b {
                for k in start[c] as usize..start[c + 1] as usize {
                    let i = ord[k] as usize;
                    if !due[i] {
                        o.push((0, [0; 3]));
                        continue;
                    }
                    let (xi, l, mi) = (xs[k], ls[k], sm[k]);
                    hit.clear();
                    for &(s0, e0) in &nb[c] {
                        for j in s0..e0 {
                            let xj = xs[j];
                            let (dx, dy, dz) = (
                                mini(xi[0], xj[0]) as i64,
                                mini(xi[1], xj[1]) as i64,
                                mini(xi[2], xj[2]) as i64,
                            );
                            let r2 = (dx * dx + dy * dy + dz * dz) as u64;
                            if r2 < l.h2.max(h2m[j]) {
                                hit.push((j as u32, r2))
                            }
                        }
                    }
                    let mut f = [0i128; 3];
                    for &(j, r2) in &hit {
                        let j = j as usize;
                        if j == k {
                            continue;
                        }
                        let mut kk = 0u128;
                        if r2 < l.h2 {
                            kk += forc(&fs[k], sm[j] * u[root(sq(r2, &l), &rt)])
                        }
                        if r2 < h2m[j] {
                            kk += forc(&fs[j], mi * u[root(sq(r2, &ls[j]), &rt)])
                        }
                        let xj = xs[j];
                        for q in 0..3 {
                            f[q] += kk as i128 * mini(xi[q], xj[q]) as i128
                        }
                    }
                    o.push((0, f))
                }
            }
            o
        });
        for k in 0..n {
            let i = ord[k] as usize;
            if !due[i] {
                continue;
            }
            let f = fo[k].1;
            let p = &mut ps[i];
            let old = p.bin;
            let fm = f.iter().map(|v| v.unsigned_abs()).max().unwrap();
            let mut b = d.bin_min;
            for c in d.bin_min..=d.bin_max {
                if t % (1 << c) == 0
                    && (c == d.bin_min || fm << (2 * c) <= d.accuracy as u128 * p.mass as u128 * p.h as u128)
                {
                    b = c
                }
            }
            for a in 0..3 {
                p.q[a] = if t == 0 { p.p[a] } else { p.p[a] + (f[a] << old) };
                p.p[a] = p.q[a] + (f[a] << b);
            }
            p.f = f;
            p.x0 = x[i].map(|v| v as u32);
            p.t0 = t;
            p.bin = b;
        }
        if t % d.every == 0 {
            out.extend(b"SPHSNAP1");
            out.extend(t.to_le_bytes());
            out.extend((n as u32).to_le_bytes());
            for (i, p) in ps.iter().enumerate() {
                for v in [i as u32 + 1, p.mass, p.h, p.x0[0], p.x0[1], p.x0[2]] {
                    out.extend(v.to_le_bytes())
                }
                for a in 0..3 {
                    out.extend(p.q[a].to_le_bytes())
                }
                out.extend(p.rho.to_le_bytes());
                out.extend(p.bin.to_le_bytes());
            }
        }
        if t >= d.ticks {
            break;
        }
        t += 1 << d.bin_min;
    }
    eprintln!("steps {:.3} s", t00.elapsed().as_secs_f64());
    out.extend(b"SPHSNEND");
    std::io::stdout().write_all(&out).unwrap();
}
