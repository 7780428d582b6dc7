//! The rules of docs/FORMATS.md, docs/REFUSALS.md and docs/RULES.md as one would write them in Rust.

const MOST_BYTES: usize = 4096;
const MOST_DEVICES: usize = 64;
const MOST_LINKS: usize = 256;

/// Number and place of a refusal.
#[derive(Debug, PartialEq, Eq, Clone, Copy)]
pub struct Refusal {
    pub number: u8,
    pub place: usize,
}

pub fn refuse<T>(number: u8, place: usize) -> Result<T, Refusal> {
    Err(Refusal { number, place })
}

/// The devices of a board in their order.
#[derive(Debug, PartialEq, Eq, Clone)]
pub struct Order {
    places: [u8; MOST_DEVICES],
    count: usize,
}

impl Order {
    pub fn devices(&self) -> &[u8] {
        &self.places[..self.count]
    }
}

struct Tables<'a> {
    devices: &'a [u8],
    links: &'a [u8],
    device_place: usize,
    link_place: usize,
}

fn two_bytes(bytes: &[u8], at: usize) -> usize {
    u16::from_le_bytes([bytes[at], bytes[at + 1]]) as usize
}

fn tables(file: &[u8]) -> Result<Tables<'_>, Refusal> {
    if file.len() < 16 || file.len() > MOST_BYTES {
        return refuse(1, 0);
    }
    let t = file.len() - 16;
    let trailer = &file[t..];
    if &trailer[..4] != b"SLPB" || trailer[4] != 1 {
        return refuse(2, t);
    }
    let n: usize = trailer[5..8].iter().map(|&count| count as usize).sum();
    let m = two_bytes(trailer, 8);
    if n == 0 || n > MOST_DEVICES || m > MOST_LINKS || trailer[10..12] != [0, 0] {
        return refuse(3, t);
    }
    let (d, l) = (two_bytes(trailer, 12), two_bytes(trailer, 14));
    if d < 16 * n || d > t || l < 4 * m || l > t {
        return refuse(4, t);
    }
    let (device_place, link_place) = (t - d, t - l);
    let (device_end, link_end) = (device_place + 16 * n, link_place + 4 * m);
    if m > 0 && device_place < link_end && link_place < device_end {
        return refuse(4, t);
    }
    Ok(Tables {
        devices: &file[device_place..device_end],
        links: &file[link_place..link_end],
        device_place,
        link_place,
    })
}

fn is_name(field: &[u8]) -> bool {
    let size = field.iter().position(|&b| b == 0).unwrap_or(field.len());
    let (name, padding) = field.split_at(size);
    name.first().is_some_and(|b| b.is_ascii_lowercase())
        && name.iter().all(|b| b.is_ascii_lowercase() || b.is_ascii_digit())
        && padding.iter().all(|&b| b == 0)
}

/// Adds each device's parent to its superiors.
fn read_devices(tables: &Tables, superiors: &mut [u64; MOST_DEVICES]) -> Result<usize, Refusal> {
    let records = tables.devices.chunks_exact(16);
    let n = records.len();
    for (i, record) in records.enumerate() {
        let (name, parent) = (&record[..8], record[8]);
        let known = tables.devices.chunks_exact(16).take(i).any(|earlier| &earlier[..8] == name);
        let right_parent = parent == 255 || (parent as usize) < n && parent as usize != i;
        if !is_name(name) || known || !right_parent || record[9..12] != [0, 0, 0] {
            return refuse(5, tables.device_place + 16 * i);
        }
        if parent != 255 {
            superiors[i] |= 1 << parent;
        }
    }
    Ok(n)
}

/// Adds each link's supplier to the superiors of its consumer.
fn read_links(tables: &Tables, n: usize, superiors: &mut [u64; MOST_DEVICES]) -> Result<(), Refusal> {
    for (j, record) in tables.links.chunks_exact(4).enumerate() {
        match *record {
            [consumer, supplier, 0, 0]
                if (consumer as usize) < n && (supplier as usize) < n && consumer != supplier =>
            {
                superiors[consumer as usize] |= 1 << supplier;
            }
            _ => return refuse(6, tables.link_place + 4 * j),
        }
    }
    Ok(())
}

fn order(n: usize, superiors: &[u64; MOST_DEVICES]) -> Result<Order, Refusal> {
    let mut order = Order { places: [0; MOST_DEVICES], count: 0 };
    let mut placed = 0u64;
    while let Some(d) = (0..n).find(|&d| placed >> d & 1 == 0 && superiors[d] & !placed == 0) {
        order.places[order.count] = d as u8;
        order.count += 1;
        placed |= 1 << d;
    }
    match (0..n).find(|&d| placed >> d & 1 == 0) {
        Some(device) => refuse(7, device),
        None => Ok(order),
    }
}

fn order_of(tables: &Tables) -> Result<Order, Refusal> {
    let mut superiors = [0; MOST_DEVICES];
    let n = read_devices(tables, &mut superiors)?;
    read_links(tables, n, &mut superiors)?;
    order(n, &superiors)
}

/// The order of the board that a board file describes, or its refusal.
pub fn check(file: &[u8]) -> Result<Order, Refusal> {
    order_of(&tables(file)?)
}

/// What a run needs of a device. Its name is there for who prints the report.
#[allow(dead_code)]
#[derive(Debug, Clone, Copy)]
pub struct Device {
    pub name: [u8; 8],
    pub word: u32,
}

/// The devices of a board by number: first those in registers, then those on the bus, then the quiet ones.
#[derive(Debug)]
pub struct Board {
    pub devices: Vec<Device>,
    pub registers: usize,
    pub buses: usize,
    pub order: Order,
}

fn device(record: &[u8]) -> Device {
    let (mut name, mut word) = ([0; 8], [0; 4]);
    name.copy_from_slice(&record[..8]);
    word.copy_from_slice(&record[12..]);
    Device { name, word: u32::from_le_bytes(word) }
}

/// The board that a board file describes, or its refusal.
pub fn read(file: &[u8]) -> Result<Board, Refusal> {
    let tables = tables(file)?;
    let order = order_of(&tables)?;
    let trailer = &file[file.len() - 16..];
    Ok(Board {
        devices: tables.devices.chunks_exact(16).map(device).collect(),
        registers: trailer[5] as usize,
        buses: trailer[6] as usize,
        order,
    })
}
