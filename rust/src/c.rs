//! The functions of include/cembuxola.h, over slices. They ask nothing of the lengths and contents: every one is answered with a number.

use crate::{ANSWER_NUMBERS, MACHINE_WORDS, PLACE_WORDS, WRITTEN_NUMBERS};
use std::ffi::c_void;
use std::mem::transmute;

extern "C" {
    fn cembuxola_load(
        image: *const u8,
        image_length: usize,
        map: *mut u32,
        map_length: usize,
        place: *mut u16,
        place_length: usize,
    ) -> u16;
    fn cembuxola_archive(
        image: *const u8,
        image_length: usize,
        map: *mut u32,
        map_length: usize,
        out: *mut u8,
        out_length: usize,
        written: *mut u32,
        written_length: usize,
    ) -> u16;
    fn cembuxola_start(
        image: *const u8,
        image_length: usize,
        store: *mut u16,
        store_length: usize,
        machine: *mut u16,
        machine_length: usize,
    ) -> u16;
    fn cembuxola_run(
        machine: *mut u16,
        machine_length: usize,
        image: *const u8,
        image_length: usize,
        map: *const u32,
        map_length: usize,
        store: *mut u16,
        store_length: usize,
        outputs: *mut u16,
        outputs_length: usize,
        inputs: *const u16,
        inputs_length: usize,
        answer: *mut u32,
        answer_length: usize,
        n: u32,
        requests: u16,
    ) -> u16;
}

type Load = unsafe extern "C" fn(*const u8, usize, *mut u32, usize, *mut u16, usize) -> u16;
type Archive =
    unsafe extern "C" fn(*const u8, usize, *mut u32, usize, *mut u8, usize, *mut u32, usize) -> u16;
type Start = unsafe extern "C" fn(*const u8, usize, *mut u16, usize, *mut u16, usize) -> u16;
type Run = unsafe extern "C" fn(
    *mut u16,
    usize,
    *const u8,
    usize,
    *const u32,
    usize,
    *mut u16,
    usize,
    *mut u16,
    usize,
    *const u16,
    usize,
    *mut u32,
    usize,
    u32,
    u16,
) -> u16;

/// The functions of a build of the library.
#[derive(Clone, Copy, Debug)]
pub struct Library {
    load: Load,
    archive: Option<Archive>,
    start: Start,
    run: Run,
}

/// The build that is linked.
pub const LINKED: Library = Library {
    load: cembuxola_load,
    archive: Some(cembuxola_archive),
    start: cembuxola_start,
    run: cembuxola_run,
};

impl Library {
    /// A build whose functions stand at these addresses. One from before A.11 has no archive, which is null then.
    ///
    /// # Safety
    /// They are the functions of a build, stay there, and read and write no more of the buffers than include/cembuxola.h says.
    pub unsafe fn at(
        load: *mut c_void,
        archive: *mut c_void,
        start: *mut c_void,
        run: *mut c_void,
    ) -> Library {
        Library {
            load: transmute::<*mut c_void, Load>(load),
            archive: transmute::<*mut c_void, Option<Archive>>(archive),
            start: transmute::<*mut c_void, Start>(start),
            run: transmute::<*mut c_void, Run>(run),
        }
    }

    /// Load: 0, or a refusal 1 to 8 or 13, or 20 where the place has not [`PLACE_WORDS`] words.
    pub fn load(&self, image: &[u8], map: &mut [u32], place: &mut [u16]) -> u16 {
        // SAFETY: each pointer and length are those of a slice, and a slice that is written overlaps no other.
        unsafe {
            (self.load)(
                image.as_ptr(),
                image.len(),
                map.as_mut_ptr(),
                map.len(),
                place.as_mut_ptr(),
                place.len(),
            )
        }
    }

    /// Whether the build has archive; [`LINKED`] has.
    pub fn has_archive(&self) -> bool {
        self.archive.is_some()
    }

    /// Archive: 0, or a refusal 1 to 8, 13 or 14, or 20 where what is written has not [`WRITTEN_NUMBERS`] number. The build must have it.
    pub fn archive(
        &self,
        image: &[u8],
        map: &mut [u32],
        out: &mut [u8],
        written: &mut [u32],
    ) -> u16 {
        let archive = self.archive.expect("a build from before A.11");
        // SAFETY: as in `load`.
        unsafe {
            archive(
                image.as_ptr(),
                image.len(),
                map.as_mut_ptr(),
                map.len(),
                out.as_mut_ptr(),
                out.len(),
                written.as_mut_ptr(),
                written.len(),
            )
        }
    }

    /// Start: 0, or a refusal 1 to 6, 9, or 20 where the machine has not [`MACHINE_WORDS`] words.
    pub fn start(&self, image: &[u8], store: &mut [u16], machine: &mut [u16]) -> u16 {
        // SAFETY: as in `load`.
        unsafe {
            (self.start)(
                image.as_ptr(),
                image.len(),
                store.as_mut_ptr(),
                store.len(),
                machine.as_mut_ptr(),
                machine.len(),
            )
        }
    }

    /// Run: a stop 30 to 40, or a refusal; 20 where the machine has not [`MACHINE_WORDS`] words or the answer not [`ANSWER_NUMBERS`]. A trap that
    /// is caught is a step, and no stop.
    #[allow(clippy::too_many_arguments)]
    pub fn run(
        &self,
        machine: &mut [u16],
        image: &[u8],
        map: &[u32],
        store: &mut [u16],
        outputs: &mut [u16],
        inputs: &[u16],
        answer: &mut [u32],
        n: u32,
        requests: u16,
    ) -> u16 {
        // SAFETY: as in `load`.
        unsafe {
            (self.run)(
                machine.as_mut_ptr(),
                machine.len(),
                image.as_ptr(),
                image.len(),
                map.as_ptr(),
                map.len(),
                store.as_mut_ptr(),
                store.len(),
                outputs.as_mut_ptr(),
                outputs.len(),
                inputs.as_ptr(),
                inputs.len(),
                answer.as_mut_ptr(),
                answer.len(),
                n,
                requests,
            )
        }
    }
}

const _: () =
    assert!(PLACE_WORDS == 2 && WRITTEN_NUMBERS == 1 && MACHINE_WORDS == 24 && ANSWER_NUMBERS == 4);
