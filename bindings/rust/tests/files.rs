//! Site files: read, refused, and their labels.

mod common;

use common::THIRTY;
use panelrights::{label, read_file, Refusal, State};

/// A site file: five tables of pairs in the file's order, and the labels.
fn file(tables: [&[[u8; 2]]; 5], labels: &[(u8, &str)]) -> Vec<u8> {
    let mut parts: Vec<(usize, Vec<u8>)> = tables.iter().map(|pairs| (pairs.len(), pairs.concat())).collect();
    let entry = |&(area, text): &(u8, &str)| {
        let mut entry = vec![area, text.len() as u8];
        entry.extend_from_slice(text.as_bytes());
        entry.resize(32, 0);
        entry
    };
    parts.push((labels.len(), labels.iter().flat_map(entry).collect()));
    let mut offsets = vec![28];
    for (_, bytes) in &parts {
        offsets.push(offsets[offsets.len() - 1] + bytes.len());
    }
    let counts = parts.iter().map(|(count, _)| *count);
    let header = [1, offsets[6]].into_iter().chain(counts).chain(offsets[..6].iter().copied());
    let mut file: Vec<u8> = header.flat_map(|field| (field as u16).to_le_bytes()).collect();
    file.extend(parts.into_iter().flat_map(|(_, bytes)| bytes));
    file
}

/// Area 1 lies in area 0 and exports object 9, which it defines; area 0 has no label.
fn good() -> Vec<u8> {
    file([&[[0, 0], [0, 1], [3, 1], [3, 2]], &[[9, 1]], &[[1, 0]], &[], &[[9, 1]]], &[(1, "~ "), (2, THIRTY)])
}

/// The good file with one byte changed.
fn changed(place: usize, byte: u8) -> Vec<u8> {
    let mut file = good();
    file[place] = byte;
    file
}

#[test]
fn a_good_file() {
    let state = read_file(&good()).unwrap();
    assert_eq!(
        format!("{state:?}"),
        "State { users: [0, 3], areas: [0, 1, 2], objects: [9], owners: [(0, 0), (0, 1), (3, 1), (3, 2)], \
         definitions: [(9, 1)], structure: [(1, 0)], imports: [], exports: [(9, 1)] }"
    );
    assert_eq!(state.access(0, 9), Ok(Some(1)));
    assert_eq!(State::from_record(state.as_record()), Ok(state));
}

/// Areas 0 to 9, each in the next; object 9 of area 0 is imported by one area and exported by the first few.
fn row(importer: u8, exporters: u8) -> Vec<u8> {
    let pairs = |pair: fn(u8) -> [u8; 2], count: u8| -> Vec<[u8; 2]> { (0..count).map(pair).collect() };
    let owners = pairs(|area| [0, area], 10);
    let structure = pairs(|inner| [inner, inner + 1], 9);
    let exports = pairs(|area| [9, area], exporters);
    file([&owners, &[[9, 0]], &structure, &[[9, importer]], &exports], &[(1, "x")])
}

/// Areas 0 to 8 export, the last by 8 steps: area 8 may import, and area 9, by 9 steps, neither import nor export.
#[test]
fn rows_of_8_steps_and_of_9() {
    let state = read_file(&row(8, 9)).unwrap();
    assert_eq!(state.access(8, 9), Ok(Some(8)));
    assert_eq!(state.access(9, 9), Ok(None));
    assert_eq!(label(&row(8, 9), 1), Some("x"));
    for far in [row(9, 9), row(8, 10)] {
        assert_eq!(read_file(&far), Err(Refusal::FileLacksAccess));
        assert_eq!(label(&far, 1), None);
    }
}

/// Area 1 lies in area 0, which defines object 9: area 1 may import it, and area 0 may not.
#[test]
fn imports_by_the_area_that_defines() {
    let borrowed = |importer: u8, labels: &[(u8, &str)]| {
        file([&[[0, 0], [0, 1]], &[[9, 0]], &[[1, 0]], &[[9, importer]], &[[9, 0]]], labels)
    };
    assert_eq!(read_file(&borrowed(1, &[])).unwrap().access(1, 9), Ok(Some(1)));
    assert_eq!(label(&borrowed(1, &[(1, "x")]), 1), Some("x"));
    assert_eq!(read_file(&borrowed(0, &[])), Err(Refusal::FileLacksAccess));
    assert_eq!(label(&borrowed(0, &[(1, "x")]), 1), None);
    // 26, 27 and 28 come before.
    assert_eq!(read_file(&borrowed(0, &[(1, "\n")])), Err(Refusal::FileRange));
    assert_eq!(read_file(&borrowed(0, &[(1, "x"), (0, "x")])), Err(Refusal::FileOrder));
    assert_eq!(read_file(&borrowed(0, &[(5, "x")])), Err(Refusal::FileLists));
}

/// Every area with each first number below this.
fn every_pair(firsts: u8) -> Vec<[u8; 2]> {
    (0..firsts).flat_map(|first| (0..32).map(move |area| [first, area])).collect()
}

/// These imports, and of all else as much as there can be; objects 0 and 32 are defined in area 0, and so on.
fn largest(imports: &[[u8; 2]]) -> Vec<u8> {
    let definitions: Vec<_> = (0..64).map(|object| [object, object % 32]).collect();
    let labels: Vec<_> = (0..32).map(|area| (area, THIRTY)).collect();
    file([&every_pair(32), &definitions, &every_pair(32), imports, &every_pair(64)], &labels)
}

/// 1,984 imports are by areas that do not define the object. All 2,048 are within the limit of the count, and are 29.
#[test]
fn the_largest_file() {
    let mut borrowed = every_pair(64);
    borrowed.retain(|[object, area]| *area != object % 32);
    let accepted = largest(&borrowed);
    assert_eq!((borrowed.len(), accepted.len()), (1984, 13_340));
    assert_eq!(read_file(&accepted).unwrap().access(31, 0), Ok(Some(1)));
    assert_eq!(label(&accepted, 31), Some(THIRTY));
    let full = largest(&every_pair(64));
    assert_eq!(full.len(), 13_468);
    assert_eq!(read_file(&full).err(), Some(Refusal::FileLacksAccess));
    assert_eq!(label(&full, 31), None);
}

/// Each refused file, with a label asked for that the file would have.
#[test]
fn refused_files() {
    let longer = |more: usize| [good(), vec![0; more]].concat();
    let bad = [
        (vec![], Refusal::FileTooShort),
        (good()[..27].to_vec(), Refusal::FileTooShort),
        (changed(0, 0), Refusal::FileVersion),
        (longer(1), Refusal::FileLength),
        (longer(65536), Refusal::FileLength),
        (changed(6, 65), Refusal::FileCount),
        (changed(16, 29), Refusal::FileOffset),
        (changed(29, 32), Refusal::FileRange),
        (changed(31, 0), Refusal::FileOrder),
        (file([&[[0, 0]], &[], &[], &[], &[]], &[(1, "x"), (5, "x")]), Refusal::FileLists),
        (file([&[], &[], &[], &[], &[]], &[]), Refusal::FileLists),
        (file([&[[0, 0], [0, 1]], &[[9, 1]], &[], &[[9, 0]], &[]], &[(1, "x")]), Refusal::FileLacksAccess),
        (file([&[[0, 0], [0, 1]], &[[9, 1]], &[], &[[9, 1]], &[]], &[(1, "x")]), Refusal::FileLacksAccess),
    ];
    for (file, refusal) in bad {
        assert_eq!(read_file(&file), Err(refusal), "{} bytes", file.len());
        assert_eq!(label(&file, 1), None, "{refusal:?}");
        assert_eq!(panelrights::labels(&file), Err(refusal));
    }
}

#[test]
fn labels() {
    let file = good();
    for area in 0..1024 {
        let expected = match area {
            1 => Some("~ "),
            2 => Some(THIRTY),
            _ => None,
        };
        assert_eq!(label(&file, area), expected, "{area}");
    }
    for above in [1 << 16, 1 << 24, 1 << 31, u32::MAX - 255] {
        assert_eq!(label(&file, above + 2), None, "{above}");
    }
    let all = panelrights::labels(&file).unwrap();
    assert!(all.iter().eq([(1, "~ "), (2, THIRTY)]));
    let text = label(&file, 2).unwrap();
    assert_eq!(text.as_ptr(), file[file.len() - 30..].as_ptr(), "the text is a part of the caller's file");
}
