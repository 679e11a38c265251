//! Calls the library from safe Rust.
use pouncelilac::{render, Box, Color, Edit, Engine, Format, Note, Rect, Refused, Span, Style, GROUP, MOST_KEPT};

fn filled(r: u8, g: u8, b: u8) -> Style {
    Style { background: Color { r, g, b, a: 255 }, ..Style::default() }
}

fn rect(x: i32, y: i32, w: i32, h: i32) -> Rect {
    Rect { x, y, w, h }
}

#[test]
fn a_scene_is_painted() -> Result<(), Refused> {
    let boxes = [
        Box { place: rect(0, 0, 10, 10), look: filled(255, 255, 255), name: 0, name_end: 4, parent: 0, parent_end: 0 },
        Box { place: rect(1, 1, 4, 4), look: filled(255, 0, 0), name: 5, name_end: 6, parent: 0, parent_end: 4 },
    ];
    let (pixels, note) = render(10, 10, "root a", &boxes)?;
    assert_eq!(note, Note { number: 1, built: 2, kept: 0, area: 100 });
    assert_eq!(pixels[4 * 11..4 * 11 + 4], [255, 0, 0, 255]);
    assert_eq!(pixels[..4], [255, 255, 255, 255]);
    assert_eq!(render(10, 10, "", &boxes), Err(Refused(12)));
    assert_eq!(render(-1, 10, "root a", &boxes), Err(Refused(12)));
    Ok(())
}

#[test]
fn an_engine_is_edited() -> Result<(), Refused> {
    let mut engine = Engine::new(10, 10, "root", rect(0, 0, 10, 10), &filled(255, 255, 255))?;
    engine.insert("a", "root", None, rect(1, 1, 4, 4), &filled(255, 0, 0))?;
    engine.insert("b", "root", Some("a"), rect(3, 3, 4, 4), &filled(0, 255, 0))?;
    engine.set_style("a", &filled(0, 0, 255), 64)?;
    engine.move_to("b", "a", None)?;
    engine.shift("a", 1, 1)?;
    engine.set_rect("b", rect(0, 0, 1, 1))?;
    assert_eq!(engine.pixel(0, 0), Err(Refused(15)));
    assert_eq!(engine.hit(0, 0), Err(Refused(15)));
    assert_eq!(engine.pixels()?.len(), 400);
    assert_eq!(engine.list(), Ok(vec![]));
    assert_eq!(engine.spans(), Err(Refused(16)));
    assert_eq!(engine.tiles(4), Err(Refused(16)));
    engine.remove("a")?;
    assert_eq!(engine.remove("b"), Err(Refused(1)));
    Ok(())
}

#[test]
fn bad_arguments_are_refused() {
    let plain = Style::default();
    assert_eq!(Engine::new(0, 10, "root", rect(0, 0, 1, 1), &plain).err(), Some(Refused(12)));
    assert_eq!(Engine::new(10, 10, "", rect(0, 0, 1, 1), &plain).err(), Some(Refused(11)));
    assert_eq!(Engine::new(10, 10, "root", rect(0, 0, -1, 1), &plain).err(), Some(Refused(9)));
    let mut engine = Engine::new(10, 10, "root", rect(0, 0, 1, 1), &plain).unwrap();
    assert_eq!(engine.remove("root"), Err(Refused(3)));
    assert_eq!(engine.insert("a", "root", None, rect(0, 0, 1, 1), &Style { position: 9, ..plain }), Err(Refused(12)));
    assert_eq!(engine.insert("root", "root", None, rect(0, 0, 1, 1), &plain), Err(Refused(6)));
    assert_eq!(engine.insert("\u{e9}", "root", None, rect(0, 0, 1, 1), &plain), Err(Refused(11)));
}

#[test]
fn a_paint_keeps_what_it_may() -> Result<(), Refused> {
    let mut engine = Engine::new(10, 10, "root", rect(0, 0, 10, 10), &filled(255, 255, 255))?;
    engine.insert("a", "root", None, rect(1, 1, 4, 4), &filled(255, 0, 0))?;
    engine.insert("b", "root", None, rect(3, 3, 4, 4), &Style { opacity: 128, ..filled(0, 255, 0) })?;
    assert_eq!(engine.paint()?, Note { number: 1, built: 3, kept: 0, area: 100 });
    assert_eq!(engine.spans()?.len(), 10);
    assert_eq!((engine.tiles(4)?.len(), engine.tiles(4)?[5], engine.tiles(64)?), (9, rect(8, 4, 2, 4), vec![rect(0, 0, 10, 10)]));
    assert_eq!(engine.pixel(1, 1)?, Color { r: 255, g: 0, b: 0, a: 255 });
    assert_eq!((engine.hit(3, 3)?, engine.hit(1, 1)?, engine.hit(9, 9)?), ("b".into(), "a".into(), "root".into()));
    let list = engine.list()?;
    assert_eq!(list.len(), 4);
    let group = list.iter().find(|e| e.kind == GROUP).expect("a group");
    assert_eq!((group.entries, group.opacity), (1, 128));
    assert_eq!(engine.id(group.slot, group.generation)?, "b");
    engine.set_rect("a", rect(1, 1, 2, 1))?;
    assert_eq!(engine.pixel(1, 1), Err(Refused(15)));
    let note = engine.paint()?;
    assert_eq!((note.number, note.area), (2, 16));
    assert_eq!(engine.spans()?[0], Span { y: 1, x0: 1, x1: 5 });
    assert_eq!(engine.tiles(4)?, [rect(0, 0, 4, 4), rect(4, 0, 4, 4), rect(0, 4, 4, 4), rect(4, 4, 4, 4)]);
    assert_eq!(engine.tiles(3)?, [rect(0, 0, 3, 3), rect(3, 0, 3, 3), rect(0, 3, 3, 3), rect(3, 3, 3, 3)]);
    assert_eq!((engine.tiles(0), engine.tiles(4097)), (Err(Refused(12)), Err(Refused(12))));
    let mut two = [0u8; 8];
    engine.copy(rect(2, 1, 2, 1), Format::Bgra, 8, &mut two)?;
    assert_eq!(two, [0, 0, 255, 255, 255, 255, 255, 255]);
    assert_eq!(engine.copy(rect(2, 1, 2, 1), Format::Bgra, 7, &mut two), Err(Refused(12)));
    assert_eq!(engine.copy(rect(2, 1, 2, 2), Format::Bgra, 8, &mut two), Err(Refused(17)));
    assert_eq!(engine.copy(rect(9, 1, 2, 1), Format::Bgra, 8, &mut two), Err(Refused(12)));
    Ok(())
}

#[test]
fn edits_come_in_one_call() -> Result<(), Refused> {
    let plain = Style::default();
    let mut engine = Engine::new(10, 10, "1", rect(0, 0, 10, 10), &plain)?;
    let place = rect(0, 0, 2, 2);
    let edits = [
        Edit::Insert { id: 2.into(), parent: 1.into(), before: None, place, style: filled(1, 2, 3) },
        Edit::Insert { id: "x".into(), parent: "1".into(), before: Some(2.into()), place, style: plain },
        Edit::Shift { id: 2.into(), dx: 1, dy: 1 },
        Edit::Remove { id: 3.into() },
        Edit::Remove { id: 2.into() },
    ];
    assert_eq!(engine.edits(&edits), Err((3, Refused(1))));
    engine.paint()?;
    assert_eq!(engine.hit(2, 2)?, "2");
    assert_eq!(engine.edits(&edits[4..]), Ok(()));
    assert_eq!(engine.edits(&[]), Ok(()));
    engine.paint()?;
    assert_eq!(engine.hit(2, 2)?, "1");
    assert_eq!(engine.edits(&[Edit::Scroll { id: 1.into(), x: 1_000_001, y: 0 }]), Err((0, Refused(9))));
    Ok(())
}

#[test]
fn a_scroll_moves_what_is_clipped() -> Result<(), Refused> {
    let (red, blue) = (filled(255, 0, 0), filled(0, 0, 255));
    let mut engine = Engine::new(10, 10, "root", rect(0, 0, 10, 10), &filled(255, 255, 255))?;
    engine.insert("a", "root", None, rect(0, 0, 5, 5), &Style { overflow: 2, ..red })?;
    engine.insert("b", "a", None, rect(0, 5, 5, 5), &blue)?;
    engine.paint()?;
    assert_eq!(engine.pixel(0, 4)?, red.background);
    engine.scroll("a", 0, 5)?;
    engine.paint()?;
    assert_eq!((engine.pixel(0, 4)?, engine.hit(0, 4)?), (blue.background, "b".into()));
    assert_eq!(engine.scroll("a", 0, 1_000_001), Err(Refused(9)));
    assert_eq!(engine.scroll("c", 0, 0), Err(Refused(1)));
    Ok(())
}

#[test]
fn edits_are_taken_back() -> Result<(), Refused> {
    let (red, blue) = (filled(255, 0, 0), filled(0, 0, 255));
    let mut engine = Engine::new(10, 10, "root", rect(0, 0, 10, 10), &filled(255, 255, 255))?;
    engine.insert("a", "root", None, rect(0, 0, 5, 5), &red)?;
    assert_eq!(engine.undo(), Err(Refused(16)));
    assert_eq!(engine.keep(MOST_KEPT + 1), Err(Refused(12)));
    engine.keep(2)?;
    engine.insert("b", "a", None, rect(1, 1, 2, 2), &blue)?;
    engine.set_rect("a", rect(0, 0, 6, 6))?;
    assert_eq!(engine.remove("nobody"), Err(Refused(1)));
    engine.remove("a")?;
    assert_eq!((engine.undo()?, engine.undo()?), (2, 1));
    assert_eq!(engine.undo(), Err(Refused(16)));
    engine.paint()?;
    assert_eq!((engine.hit(1, 1)?, engine.hit(5, 5)?), ("b".into(), "root".into()));
    assert_eq!(engine.edits(&[Edit::Remove { id: "b".into() }, Edit::Remove { id: "a".into() }]), Ok(()));
    assert_eq!((engine.undo()?, engine.undo()?), (1, 1));
    engine.keep(0)?;
    engine.remove("b")?;
    assert_eq!(engine.undo(), Err(Refused(16)));
    Ok(())
}
