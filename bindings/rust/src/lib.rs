//! Safe Rust over the Rattle crate `rd_c`, which is linked as a static library.
//!
//! Nothing checks a Rust call against a Rattle contract. The one `requires` of each export is that the handle is sound: all
//! bytes 0, or as the last call left it. [`Engine`] keeps its handle to itself, so no caller can break that.
use std::marker::PhantomData;

#[repr(C)]
struct Handle {
    at: *mut u8,
    full: bool,
}

/// A colour, not premultiplied.
#[repr(C)]
#[derive(Clone, Copy, Debug, Default, PartialEq, Eq)]
pub struct Color {
    pub r: u8,
    pub g: u8,
    pub b: u8,
    pub a: u8,
}

/// A rectangle in canvas pixels.
#[repr(C)]
#[derive(Clone, Copy, Debug, Default, PartialEq, Eq)]
pub struct Rect {
    pub x: i32,
    pub y: i32,
    pub w: i32,
    pub h: i32,
}

/// The computed values of a box, by the numbers of `rd.h`.
#[repr(C)]
#[derive(Clone, Copy, Debug, PartialEq, Eq)]
pub struct Style {
    pub z: i32,
    pub background: Color,
    pub border_color: Color,
    pub content: Color,
    pub outline_color: Color,
    pub border_top: u16,
    pub border_right: u16,
    pub border_bottom: u16,
    pub border_left: u16,
    pub outline_width: u16,
    pub position: u8,
    pub has_z: u8,
    pub opacity: u8,
    pub overflow: u8,
    pub display: u8,
    pub float: u8,
    pub has_content: u8,
    pub visibility: u8,
    pub pointer: u8,
    pub blend: u8,
    pub isolation: u8,
}

impl Default for Style {
    /// The style of a box for which nothing is said.
    fn default() -> Style {
        let (none, black) = (Color::default(), Color { a: 255, ..Color::default() });
        Style {
            z: 0,
            background: none,
            border_color: black,
            content: none,
            outline_color: black,
            border_top: 0,
            border_right: 0,
            border_bottom: 0,
            border_left: 0,
            outline_width: 0,
            position: 0,
            has_z: 0,
            opacity: 255,
            overflow: 0,
            display: 0,
            float: 0,
            has_content: 0,
            visibility: 0,
            pointer: 0,
            blend: 0,
            isolation: 0,
        }
    }
}

/// What a paint tells of itself.
#[repr(C)]
#[derive(Clone, Copy, Debug, Default, PartialEq, Eq)]
pub struct Note {
    pub number: u64,
    pub built: u64,
    pub kept: u64,
    pub area: u64,
}

/// A box of [`render`]. Its id and its parent's are bytes of one text.
#[repr(C)]
#[derive(Clone, Copy, Debug, PartialEq, Eq)]
pub struct Box {
    pub place: Rect,
    pub look: Style,
    pub name: u32,
    pub name_end: u32,
    pub parent: u32,
    pub parent_end: u32,
}

/// The columns from `x0` up to but not including `x1` of row `y`.
#[repr(C)]
#[derive(Clone, Copy, Debug, Default, PartialEq, Eq)]
pub struct Span {
    pub y: i32,
    pub x0: i32,
    pub x1: i32,
}

#[repr(C)]
#[derive(Clone, Copy)]
struct Spelled {
    number: u64,
    from: u32,
    to: u32,
    kind: u32,
}

#[repr(C)]
struct SpelledEdit {
    id: Spelled,
    parent: Spelled,
    before: Spelled,
    place: Rect,
    look: Style,
    members: u32,
    dx: i32,
    dy: i32,
    kind: u32,
}

/// The id of a box: a text, or a number, whose id is its decimal digits.
#[derive(Clone, Copy, Debug, PartialEq, Eq)]
pub enum Name<'a> {
    Text(&'a str),
    Number(u64),
}

impl<'a> From<&'a str> for Name<'a> {
    fn from(text: &'a str) -> Name<'a> {
        Name::Text(text)
    }
}

impl From<u64> for Name<'_> {
    fn from(number: u64) -> Name<'static> {
        Name::Number(number)
    }
}

/// An edit of [`Engine::edits`].
#[derive(Clone, Copy, Debug, PartialEq, Eq)]
pub enum Edit<'a> {
    Insert { id: Name<'a>, parent: Name<'a>, before: Option<Name<'a>>, place: Rect, style: Style },
    Remove { id: Name<'a> },
    Move { id: Name<'a>, parent: Name<'a>, before: Option<Name<'a>> },
    SetStyle { id: Name<'a>, style: Style, members: u32 },
    SetRect { id: Name<'a>, place: Rect },
    Shift { id: Name<'a>, dx: i32, dy: i32 },
    Scroll { id: Name<'a>, x: i32, y: i32 },
}

/// How the bytes of a pixel are ordered; the last is 255.
#[derive(Clone, Copy, Debug, PartialEq, Eq)]
pub enum Format {
    Rgba = 0,
    Bgra = 1,
}

/// One entry of the list.
#[repr(C)]
#[derive(Clone, Copy, Debug, Default, PartialEq, Eq)]
pub struct Entry {
    pub made_at: u64,
    pub entries: u64,
    pub slot: u32,
    pub generation: u32,
    pub visible: Rect,
    pub outer: Rect,
    pub inner: Rect,
    pub color: Color,
    pub kind: u8,
    pub hits: u8,
    pub opacity: u8,
    pub blend: u8,
}

/// The kind of an entry that is a group.
pub const GROUP: u8 = 4;

/// The most edits of which [`Engine::keep`] keeps what undoes them.
pub const MOST_KEPT: u32 = 1024;

/// Why a call did nothing: the numbers of `rd.h`.
#[derive(Clone, Copy, Debug, PartialEq, Eq)]
pub struct Refused(pub u32);

// These are written by hand to fit `crates/rd_c/src`: a `&[u8]` crosses as a pointer and then a length, and a `Global` not at all. An
// empty slice has a pointer that is not null here, as the library wants.
unsafe extern "C" {
    fn rd_c_render(w: i32, h: i32, names: *const u8, n: usize, boxes: *const Box, count: usize, out: *mut u8, length: usize, note: *mut Note) -> u32;
    fn rd_c_new(h: *mut Handle, w: i32, hh: i32, root: *const u8, n: usize, place: *const Rect, style: *const Style) -> u32;
    fn rd_c_free(h: *mut Handle) -> u32;
    fn rd_c_insert(h: *mut Handle, id: *const u8, n: usize, parent: *const u8, pn: usize, before: *const u8, bn: usize, place: *const Rect, style: *const Style) -> u32;
    fn rd_c_remove(h: *mut Handle, id: *const u8, n: usize) -> u32;
    fn rd_c_move(h: *mut Handle, id: *const u8, n: usize, parent: *const u8, pn: usize, before: *const u8, bn: usize) -> u32;
    fn rd_c_set_style(h: *mut Handle, id: *const u8, n: usize, style: *const Style, members: u32) -> u32;
    fn rd_c_set_rect(h: *mut Handle, id: *const u8, n: usize, place: *const Rect) -> u32;
    fn rd_c_shift(h: *mut Handle, id: *const u8, n: usize, dx: i32, dy: i32) -> u32;
    fn rd_c_scroll(h: *mut Handle, id: *const u8, n: usize, x: i32, y: i32) -> u32;
    fn rd_c_pixel(h: *mut Handle, x: i32, y: i32, out: *mut Color) -> u32;
    fn rd_c_hit(h: *mut Handle, x: i32, y: i32, out: *mut u8, n: usize, length: *mut usize) -> u32;
    fn rd_c_id(h: *mut Handle, slot: u32, generation: u32, out: *mut u8, n: usize, length: *mut usize) -> u32;
    fn rd_c_edits(h: *mut Handle, texts: *const u8, n: usize, edits: *const SpelledEdit, count: usize, done: *mut usize) -> u32;
    fn rd_c_keep(h: *mut Handle, steps: u32) -> u32;
    fn rd_c_undo(h: *mut Handle, done: *mut usize) -> u32;
    fn rd_c_paint(h: *mut Handle, note: *mut Note) -> u32;
    fn rd_c_spans(h: *mut Handle, out: *mut Span, room: usize, count: *mut usize) -> u32;
    fn rd_c_tiles(h: *mut Handle, side: u32, out: *mut Rect, room: usize, count: *mut usize) -> u32;
    fn rd_c_copy(h: *mut Handle, place: *const Rect, format: u32, stride: usize, out: *mut u8, n: usize) -> u32;
    fn rd_c_list(h: *mut Handle, out: *mut Entry, room: usize, count: *mut usize) -> u32;
}

/// An engine. It stays on its thread, since the library's proof does not show that it may go to another.
pub struct Engine {
    handle: Handle,
    width: usize,
    height: usize,
    stays: PhantomData<*mut ()>,
}

const SHORT: u32 = 17;

fn done(status: u32) -> Result<(), Refused> {
    if status == 0 { Ok(()) } else { Err(Refused(status)) }
}

/// Paints the boxes, of which the first is the root: the canvas, red, green, blue and 255 of each pixel, row by row.
pub fn render(width: i32, height: i32, names: &str, boxes: &[Box]) -> Result<(Vec<u8>, Note), Refused> {
    let side = |n: i32| usize::try_from(n).unwrap_or(0).min(4096);
    let mut out = vec![0u8; 4 * side(width) * side(height)];
    let mut note = Note::default();
    // SAFETY: each pointer and length are those of one reference. The function requires nothing.
    done(unsafe { rd_c_render(width, height, names.as_ptr(), names.len(), boxes.as_ptr(), boxes.len(), out.as_mut_ptr(), out.len(), &mut note) })?;
    Ok((out, note))
}

impl Engine {
    /// An engine of a canvas with a root.
    pub fn new(width: i32, height: i32, root: &str, place: Rect, style: &Style) -> Result<Engine, Refused> {
        let mut handle = Handle { at: std::ptr::null_mut(), full: false };
        // SAFETY: the handle is all 0, the pointers are those of references, and the text's are its own.
        done(unsafe { rd_c_new(&mut handle, width, height, root.as_ptr(), root.len(), &place, style) })?;
        Ok(Engine { handle, width: width as usize, height: height as usize, stays: PhantomData })
    }

    /// Inserts a box below a parent, before one of its children or last.
    pub fn insert(&mut self, id: &str, parent: &str, before: Option<&str>, place: Rect, style: &Style) -> Result<(), Refused> {
        let before = before.unwrap_or("");
        // SAFETY: the handle is as the last call left it, and each pointer and length are those of one reference.
        done(unsafe { rd_c_insert(&mut self.handle, id.as_ptr(), id.len(), parent.as_ptr(), parent.len(), before.as_ptr(), before.len(), &place, style) })
    }

    /// Removes a box and all below it.
    pub fn remove(&mut self, id: &str) -> Result<(), Refused> {
        // SAFETY: as in `insert`.
        done(unsafe { rd_c_remove(&mut self.handle, id.as_ptr(), id.len()) })
    }

    /// Moves a box and all below it below a parent.
    pub fn move_to(&mut self, id: &str, parent: &str, before: Option<&str>) -> Result<(), Refused> {
        let before = before.unwrap_or("");
        // SAFETY: as in `insert`.
        done(unsafe { rd_c_move(&mut self.handle, id.as_ptr(), id.len(), parent.as_ptr(), parent.len(), before.as_ptr(), before.len()) })
    }

    /// Changes the members whose bits are in `members` to those of `style`.
    pub fn set_style(&mut self, id: &str, style: &Style, members: u32) -> Result<(), Refused> {
        // SAFETY: as in `insert`.
        done(unsafe { rd_c_set_style(&mut self.handle, id.as_ptr(), id.len(), style, members) })
    }

    /// Gives a box another rectangle.
    pub fn set_rect(&mut self, id: &str, place: Rect) -> Result<(), Refused> {
        // SAFETY: as in `insert`.
        done(unsafe { rd_c_set_rect(&mut self.handle, id.as_ptr(), id.len(), &place) })
    }

    /// Moves a box and all below it on the canvas.
    pub fn shift(&mut self, id: &str, dx: i32, dy: i32) -> Result<(), Refused> {
        // SAFETY: as in `insert`.
        done(unsafe { rd_c_shift(&mut self.handle, id.as_ptr(), id.len(), dx, dy) })
    }

    /// Gives a box another scroll offset, in canvas pixels.
    pub fn scroll(&mut self, id: &str, x: i32, y: i32) -> Result<(), Refused> {
        // SAFETY: as in `insert`.
        done(unsafe { rd_c_scroll(&mut self.handle, id.as_ptr(), id.len(), x, y) })
    }

    /// The colour of a pixel; no paint is pending.
    pub fn pixel(&mut self, x: i32, y: i32) -> Result<Color, Refused> {
        let mut color = Color::default();
        // SAFETY: as in `insert`.
        done(unsafe { rd_c_pixel(&mut self.handle, x, y, &mut color) })?;
        Ok(color)
    }

    /// The id of the topmost box that is hit; no paint is pending.
    pub fn hit(&mut self, x: i32, y: i32) -> Result<String, Refused> {
        let (mut id, mut length) = ([0u8; 64], 0usize);
        // SAFETY: as in `insert`, and the pointer and the length are those of one array.
        done(unsafe { rd_c_hit(&mut self.handle, x, y, id.as_mut_ptr(), id.len(), &mut length) })?;
        Ok(String::from_utf8_lossy(&id[..length]).into_owned())
    }

    /// The id of the box with this key, as an entry of the list tells it.
    pub fn id(&mut self, slot: u32, generation: u32) -> Result<String, Refused> {
        let (mut id, mut length) = ([0u8; 64], 0usize);
        // SAFETY: as in `hit`.
        done(unsafe { rd_c_id(&mut self.handle, slot, generation, id.as_mut_ptr(), id.len(), &mut length) })?;
        Ok(String::from_utf8_lossy(&id[..length]).into_owned())
    }

    /// Does edits in order, up to the first that is refused: its place, and why.
    pub fn edits(&mut self, edits: &[Edit<'_>]) -> Result<(), (usize, Refused)> {
        let mut texts = String::new();
        let mut spelled = Vec::with_capacity(edits.len());
        for (place, edit) in edits.iter().enumerate() {
            let Some(edit) = edit.spelled(&mut texts) else {
                return Err((place, Refused(12)));
            };
            spelled.push(edit);
        }
        let mut count = 0usize;
        // SAFETY: as in `insert`.
        let status = unsafe { rd_c_edits(&mut self.handle, texts.as_ptr(), texts.len(), spelled.as_ptr(), spelled.len(), &mut count) };
        if status == 0 { Ok(()) } else { Err((count, Refused(status))) }
    }

    /// Keeps from now on what undoes the last `steps` edits, at most [`MOST_KEPT`] (number 12 where they are more); none where it is 0,
    /// as at first. What was kept before is forgotten.
    pub fn keep(&mut self, steps: u32) -> Result<(), Refused> {
        // SAFETY: as in `insert`.
        done(unsafe { rd_c_keep(&mut self.handle, steps) })
    }

    /// Takes the last edit back that is kept and not taken back yet: how many edits that took. Number 16 where no edit is kept. Without
    /// memory (number 10) those before the one that wanted it are done, and the next call goes on with the others.
    pub fn undo(&mut self) -> Result<usize, Refused> {
        let mut count = 0usize;
        // SAFETY: as in `insert`.
        done(unsafe { rd_c_undo(&mut self.handle, &mut count) })?;
        Ok(count)
    }

    /// Paints what has changed since the last paint.
    pub fn paint(&mut self) -> Result<Note, Refused> {
        let mut note = Note::default();
        // SAFETY: as in `insert`.
        done(unsafe { rd_c_paint(&mut self.handle, &mut note) })?;
        Ok(note)
    }

    /// The pixels that the last paint painted anew: of each row from the top its spans from the left.
    pub fn spans(&mut self) -> Result<Vec<Span>, Refused> {
        // SAFETY: as in `insert`, and the pointer and the length are those of one vector.
        self.all(|handle, out: &mut Vec<Span>, count| unsafe { rd_c_spans(handle, out.as_mut_ptr(), out.len(), count) })
    }

    /// The tiles that the last paint painted anew: those of `side` by `side` pixels, cut at the right and lower edges of the canvas, that
    /// have a pixel of [`Engine::spans`]. Each is told by the rectangle of its pixels, row by row from the top, each row from the left;
    /// [`Engine::copy`] of it gives them. Number 12 where `side` is not 1 to 4,096.
    pub fn tiles(&mut self, side: u32) -> Result<Vec<Rect>, Refused> {
        // SAFETY: as in `insert`, and the pointer and the length are those of one vector.
        self.all(|handle, out: &mut Vec<Rect>, count| unsafe { rd_c_tiles(handle, side, out.as_mut_ptr(), out.len(), count) })
    }

    /// The list of the last paint, each group right before its entries.
    pub fn list(&mut self) -> Result<Vec<Entry>, Refused> {
        // SAFETY: as in `insert`, and the pointer and the length are those of one vector.
        self.all(|handle, out: &mut Vec<Entry>, count| unsafe { rd_c_list(handle, out.as_mut_ptr(), out.len(), count) })
    }

    /// What a call gives that also tells how many there are where there is no room.
    fn all<T: Clone + Default>(&mut self, mut call: impl FnMut(&mut Handle, &mut Vec<T>, &mut usize) -> u32) -> Result<Vec<T>, Refused> {
        let (mut out, mut count) = (Vec::new(), 0usize);
        let mut status = call(&mut self.handle, &mut out, &mut count);
        if status == SHORT {
            out.resize(count, T::default());
            status = call(&mut self.handle, &mut out, &mut count);
        }
        done(status)?;
        Ok(out)
    }

    /// Copies a rectangle of the canvas of the last paint: four bytes a pixel, each row `stride` bytes behind the one above it.
    pub fn copy(&mut self, place: Rect, format: Format, stride: usize, out: &mut [u8]) -> Result<(), Refused> {
        // SAFETY: as in `insert`, and the pointer and the length are those of one slice.
        done(unsafe { rd_c_copy(&mut self.handle, &place, format as u32, stride, out.as_mut_ptr(), out.len()) })
    }

    /// The canvas of the last paint: red, green, blue and 255 of each pixel, row by row.
    pub fn pixels(&mut self) -> Result<Vec<u8>, Refused> {
        let mut out = vec![0u8; 4 * self.width * self.height];
        let all = Rect { x: 0, y: 0, w: self.width as i32, h: self.height as i32 };
        self.copy(all, Format::Rgba, 4 * self.width, &mut out)?;
        Ok(out)
    }
}

impl<'a> Name<'a> {
    /// Puts a text behind those that are there; none where they are longer than 32 bits tell.
    fn spelled(self, texts: &mut String) -> Option<Spelled> {
        match self {
            Name::Number(number) => Some(Spelled { number, from: 0, to: 0, kind: 2 }),
            Name::Text(text) => {
                let from = u32::try_from(texts.len()).ok()?;
                texts.push_str(text);
                let to = u32::try_from(texts.len()).ok()?;
                Some(Spelled { number: 0, from, to, kind: 1 })
            }
        }
    }
}

impl Edit<'_> {
    fn spelled(&self, texts: &mut String) -> Option<SpelledEdit> {
        let none = Spelled { number: 0, from: 0, to: 0, kind: 0 };
        let mut edit = SpelledEdit { id: none, parent: none, before: none, place: Rect::default(), look: Style::default(), members: 0, dx: 0, dy: 0, kind: 0 };
        match *self {
            Edit::Insert { id, parent, before, place, style } => {
                (edit.id, edit.parent, edit.place, edit.look) = (id.spelled(texts)?, parent.spelled(texts)?, place, style);
                if let Some(before) = before {
                    edit.before = before.spelled(texts)?;
                }
            }
            Edit::Remove { id } => (edit.kind, edit.id) = (1, id.spelled(texts)?),
            Edit::Move { id, parent, before } => {
                (edit.kind, edit.id, edit.parent) = (2, id.spelled(texts)?, parent.spelled(texts)?);
                if let Some(before) = before {
                    edit.before = before.spelled(texts)?;
                }
            }
            Edit::SetStyle { id, style, members } => (edit.kind, edit.id, edit.look, edit.members) = (3, id.spelled(texts)?, style, members),
            Edit::SetRect { id, place } => (edit.kind, edit.id, edit.place) = (4, id.spelled(texts)?, place),
            Edit::Shift { id, dx, dy } => (edit.kind, edit.id, edit.dx, edit.dy) = (5, id.spelled(texts)?, dx, dy),
            Edit::Scroll { id, x, y } => (edit.kind, edit.id, edit.dx, edit.dy) = (6, id.spelled(texts)?, x, y),
        }
        Some(edit)
    }
}

impl Drop for Engine {
    fn drop(&mut self) {
        // SAFETY: the handle is as the last call left it.
        unsafe { rd_c_free(&mut self.handle) };
    }
}
