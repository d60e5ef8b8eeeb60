//! The calls of the C library, each with slices in place of pointers and lengths.
//!
//! The pointer of a slice is never null, not even where the slice is empty.

use crate::interface::{Checked, Row, Seeking};

extern "C" {
    fn markbook_check_page(page: *const u8, page_length: usize, checked: *mut Checked) -> u8;
    fn markbook_list_dates(page: *const u8, page_length: usize, place: *mut u8, place_length: usize, written: *mut usize) -> u8;
    fn markbook_read_position(text: *const u8, text_length: usize, latitude: *mut i32, longitude: *mut i32) -> u8;
    fn markbook_write_position(latitude: i32, longitude: i32, place: *mut u8, place_length: usize, written: *mut usize) -> u8;
    fn markbook_run(
        seeking: *const Seeking,
        pages: *const u8,
        pages_length: usize,
        places: *mut u8,
        places_length: usize,
        rows: *mut Row,
        rows_length: usize,
    ) -> u8;
}

pub fn check_page(page: &[u8], checked: &mut Checked) -> u8 {
    unsafe { markbook_check_page(page.as_ptr(), page.len(), checked) }
}

pub fn list_dates(page: &[u8], place: &mut [u8], written: &mut usize) -> u8 {
    unsafe { markbook_list_dates(page.as_ptr(), page.len(), place.as_mut_ptr(), place.len(), written) }
}

pub fn read_position(text: &[u8], latitude: &mut i32, longitude: &mut i32) -> u8 {
    unsafe { markbook_read_position(text.as_ptr(), text.len(), latitude, longitude) }
}

pub fn write_position(latitude: i32, longitude: i32, place: &mut [u8], written: &mut usize) -> u8 {
    unsafe { markbook_write_position(latitude, longitude, place.as_mut_ptr(), place.len(), written) }
}

pub fn run(seeking: &Seeking, pages: &[u8], places: &mut [u8], rows: &mut [Row]) -> u8 {
    unsafe {
        markbook_run(seeking, pages.as_ptr(), pages.len(), places.as_mut_ptr(), places.len(), rows.as_mut_ptr(), rows.len())
    }
}
