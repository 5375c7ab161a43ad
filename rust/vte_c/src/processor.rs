//! Processors for C, whose handlers are tables of functions. Written by hand: proved code can't
//! call functions of C.
//!
//! The callers' rules of vte_handler.h make it sound: a processor is one that `vte_processor_new`
//! returned and that isn't freed, and a function of the table may be called with what the header
//! says, in the thread that calls the processor, and returns.
#![allow(unsafe_code)]
#![allow(clippy::missing_safety_doc)]

mod values;

use crate::ffi::slice;
use crate::memory;
use alloc::boxed::Box;
use core::ffi::c_void;
use core::mem::{size_of, zeroed};
use core::ptr;
use core::sync::atomic::{AtomicBool, Ordering};
use core::time::Duration;
use values::{attribute_number, color_of, length_of, place_of, VteColor};
use vte::ansi::cursor_icon::CursorIcon;
use vte::ansi::lent::{Handler, Hyperlink, LongProcessor};
use vte::ansi::{
    Attr, CharsetIndex, ClearMode, CursorShape, CursorStyle, HandlerText, KeyboardModes,
    KeyboardModesApplyBehavior, LineClearMode, Mode, ModifyOtherKeys, PrivateMode, Rgb,
    ScpCharPath, ScpUpdateMode, StandardCharset, TabulationClearMode, Timeout,
};

const OK: i32 = 0;
const NO_MEMORY: i32 = 1;
const BUSY: i32 = 2;

/// Writes the table of functions, and the handler that calls them: of each method its name and
/// parameters, and after `=>` what is passed to C.
macro_rules! calls {
    ($($name:ident($($argument:ident: $given:ty),*) $(=> $($sent:ty = $value:expr),+)?;)*) => {
        /// A function for each call of a handler, or null.
        #[repr(C)]
        #[derive(Clone, Copy)]
        pub struct VteHandler {
            input: Option<unsafe extern "C" fn(*mut c_void, *const u8, usize)>,
            $($name: Option<unsafe extern "C" fn(*mut c_void $($(, $sent)+)?)>,)*
        }

        impl Handler for Calls {
            fn input(&mut self, c: char) {
                self.input_text(c.encode_utf8(&mut [0; 4]));
            }

            $(fn $name(&mut self $(, $argument: $given)*) {
                if let Some(call) = self.table.$name {
                    // SAFETY: the callers' rules above
                    unsafe { call(self.user $($(, $value)+)?) }
                }
            })*
        }
    };
}

calls! {
    bell();
    backspace();
    put_tab(count: u16) => u16 = count;
    linefeed();
    carriage_return();
    newline();
    substitute();
    goto(line: i32, column: usize) => i32 = line, usize = column;
    goto_line(line: i32) => i32 = line;
    goto_col(column: usize) => usize = column;
    move_up(count: usize) => usize = count;
    move_down(count: usize) => usize = count;
    move_forward(count: usize) => usize = count;
    move_backward(count: usize) => usize = count;
    move_down_and_cr(count: usize) => usize = count;
    move_up_and_cr(count: usize) => usize = count;
    save_cursor_position();
    restore_cursor_position();
    reverse_index();
    scroll_up(count: usize) => usize = count;
    scroll_down(count: usize) => usize = count;
    set_scrolling_region(top: usize, bottom: Option<usize>)
        => usize = top, usize = bottom.unwrap_or(0);
    set_horizontal_tabstop();
    clear_tabs(which: TabulationClearMode) => u8 = which as u8;
    set_tabs(interval: u16) => u16 = interval;
    move_forward_tabs(count: u16) => u16 = count;
    move_backward_tabs(count: u16) => u16 = count;
    insert_blank(count: usize) => usize = count;
    insert_blank_lines(count: usize) => usize = count;
    delete_chars(count: usize) => usize = count;
    delete_lines(count: usize) => usize = count;
    erase_chars(count: usize) => usize = count;
    clear_line(part: LineClearMode) => u8 = part as u8;
    clear_screen(part: ClearMode) => u8 = part as u8;
    decaln();
    terminal_attribute(attribute: Attr)
        => u8 = attribute_number(attribute), VteColor = color_of(attribute);
    set_color(index: usize, color: Rgb) => usize = index, VteColor = VteColor::of_rgb(color);
    reset_color(index: usize) => usize = index;
    dynamic_color_sequence(prefix: &str, index: usize, terminator: &str)
        => *const u8 = prefix.as_ptr(), usize = prefix.len(), usize = index,
           *const u8 = terminator.as_ptr(), usize = terminator.len();
    set_hyperlink(link: Option<Hyperlink<'_>>)
        => *const u8 = place_of(link.and_then(|link| link.id)),
           usize = length_of(link.and_then(|link| link.id)),
           *const u8 = place_of(link.map(|link| link.uri)),
           usize = length_of(link.map(|link| link.uri));
    set_cursor_style(style: Option<CursorStyle>)
        => i32 = style.map_or(-1, |style| style.shape as i32),
           u8 = style.map_or(0, |style| u8::from(style.blinking));
    set_cursor_shape(shape: CursorShape) => i32 = shape as i32;
    set_mouse_cursor_icon(icon: CursorIcon)
        => *const u8 = icon.name().as_ptr(), usize = icon.name().len();
    set_active_charset(index: CharsetIndex) => u8 = index as u8;
    configure_charset(index: CharsetIndex, charset: StandardCharset)
        => u8 = index as u8, u8 = charset as u8;
    set_scp(path: ScpCharPath, update: ScpUpdateMode) => u8 = path as u8, u8 = update as u8;
    set_mode(mode: Mode) => u16 = mode.raw();
    unset_mode(mode: Mode) => u16 = mode.raw();
    report_mode(mode: Mode) => u16 = mode.raw();
    set_private_mode(mode: PrivateMode) => u16 = mode.raw();
    unset_private_mode(mode: PrivateMode) => u16 = mode.raw();
    report_private_mode(mode: PrivateMode) => u16 = mode.raw();
    reset_state();
    set_keypad_application_mode();
    unset_keypad_application_mode();
    push_keyboard_mode(mode: KeyboardModes) => u8 = mode.bits();
    pop_keyboard_modes(count: u16) => u16 = count;
    set_keyboard_mode(mode: KeyboardModes, behavior: KeyboardModesApplyBehavior)
        => u8 = mode.bits(), u8 = behavior as u8;
    report_keyboard_mode();
    set_modify_other_keys(keys: ModifyOtherKeys) => u8 = keys as u8;
    report_modify_other_keys();
    set_title(title: Option<&str>) => *const u8 = place_of(title), usize = length_of(title);
    push_title();
    pop_title();
    clipboard_store(clipboard: u8, bytes: &[u8])
        => u8 = clipboard, *const u8 = bytes.as_ptr(), usize = bytes.len();
    clipboard_load(clipboard: u8, terminator: &str)
        => u8 = clipboard, *const u8 = terminator.as_ptr(), usize = terminator.len();
    device_status(kind: usize) => usize = kind;
    identify_terminal(intermediate: Option<char>) => u8 = intermediate.map_or(0, |c| c as u8);
    text_area_size_pixels();
    text_area_size_chars();
}

impl HandlerText for Calls {
    #[inline]
    fn input_text(&mut self, text: &str) {
        if let Some(call) = self.table.input {
            // SAFETY: the callers' rules above
            unsafe { call(self.user, text.as_ptr(), text.len()) }
        }
    }
}

/// A handler that calls the functions of a table.
struct Calls {
    table: VteHandler,
    user: *mut c_void,
}

/// When the update that is held ends, in nanoseconds of the monotonic clock.
#[derive(Default)]
struct Deadline(Option<u64>);

impl Timeout for Deadline {
    fn set_timeout(&mut self, duration: Duration) {
        self.0 = Some(now() + duration.as_nanos() as u64);
    }

    fn clear_timeout(&mut self) {
        self.0 = None;
    }

    fn pending_timeout(&self) -> bool {
        self.0.is_some()
    }
}

/// The time of C's clock 1, `CLOCK_MONOTONIC`, in nanoseconds.
fn now() -> u64 {
    extern "C" {
        fn clock_gettime(clock: i32, time: *mut [i64; 2]) -> i32;
    }
    let mut time = [0; 2];
    // SAFETY: a `timespec` has 64 bits of seconds and 64 of nanoseconds on the machines that are
    // supported
    unsafe { clock_gettime(1, &mut time) };
    time[0] as u64 * 1_000_000_000 + time[1] as u64
}

/// A processor, its handler, and whether a call of it is under way.
pub struct VteProcessor {
    is_busy: AtomicBool,
    processor: LongProcessor<Deadline>,
    calls: Calls,
}

/// What is held of an update.
#[repr(C)]
pub struct VteSync {
    bytes_count: usize,
    is_pending: u8,
    deadline: u64,
}

/// Runs a call of a processor, unless one is under way, in this thread or another. Only `is_busy`
/// is looked at before: a call under way has the rest.
unsafe fn enter(
    processor: *mut VteProcessor,
    call: impl FnOnce(&mut LongProcessor<Deadline>, &mut Calls) -> i32,
) -> i32 {
    // SAFETY: the callers' rules above; references are to fields of which no call under way has
    // others
    unsafe {
        if (*processor).is_busy.swap(true, Ordering::Acquire) {
            return BUSY;
        }
        let status = call(&mut (*processor).processor, &mut (*processor).calls);
        (*processor).is_busy.store(false, Ordering::Release);
        status
    }
}

/// Returns a new processor, or null if memory is refused, or the size is of no table.
#[no_mangle]
pub unsafe extern "C" fn vte_processor_new(
    table: *const VteHandler,
    size: usize,
    user: *mut c_void,
) -> *mut VteProcessor {
    if size % size_of::<*const c_void>() != 0 {
        return ptr::null_mut();
    }
    // SAFETY: the table has `size` bytes, a whole number of functions. A null function is `None`,
    // so zeros are a table.
    let table = unsafe {
        let mut known: VteHandler = zeroed();
        let given = slice(table.cast::<u8>(), size.min(size_of::<VteHandler>()));
        ptr::copy_nonoverlapping(given.as_ptr(), ptr::addr_of_mut!(known).cast(), given.len());
        known
    };
    let calls = Calls { table, user };
    match LongProcessor::new(Deadline(None)) {
        Ok(processor) => memory::boxed(VteProcessor {
            is_busy: AtomicBool::new(false),
            processor,
            calls,
        }),
        Err(_) => ptr::null_mut(),
    }
}

/// Frees a processor, unless a call of it is under way.
#[no_mangle]
pub unsafe extern "C" fn vte_processor_free(processor: *mut VteProcessor) -> i32 {
    if processor.is_null() {
        return OK;
    }
    // SAFETY: the callers' rules above
    unsafe {
        if (*processor).is_busy.swap(true, Ordering::Acquire) {
            return BUSY;
        }
        drop(Box::from_raw(processor));
        OK
    }
}

/// Reads the next bytes of the stream.
#[no_mangle]
pub unsafe extern "C" fn vte_processor_advance(
    processor: *mut VteProcessor,
    bytes: *const u8,
    length: usize,
    read: *mut usize,
) -> i32 {
    // SAFETY: the callers' rules above
    unsafe {
        let bytes = slice(bytes, length);
        let mut count = 0;
        let status = enter(processor, |processor, calls| {
            match processor.advance_text(calls, bytes) {
                Ok(()) => {
                    count = length;
                    OK
                }
                Err(refused) => {
                    count = refused.read;
                    NO_MEMORY
                }
            }
        });
        *read = count;
        status
    }
}

/// Stops an update.
#[no_mangle]
pub unsafe extern "C" fn vte_processor_stop_sync(processor: *mut VteProcessor) -> i32 {
    // SAFETY: the callers' rules above
    unsafe {
        enter(processor, |processor, calls| {
            processor.stop_sync_text(calls);
            OK
        })
    }
}

/// Says what is held.
#[no_mangle]
pub unsafe extern "C" fn vte_processor_sync(
    processor: *mut VteProcessor,
    sync: *mut VteSync,
) -> i32 {
    // SAFETY: the callers' rules above
    unsafe {
        enter(processor, |processor, _| {
            let deadline = processor.sync_timeout().0;
            *sync = VteSync {
                bytes_count: processor.sync_bytes_count(),
                is_pending: u8::from(deadline.is_some()),
                deadline: deadline.unwrap_or(0),
            };
            OK
        })
    }
}
