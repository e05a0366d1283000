//! The port's record, through the exported calls.

use crate::library;
use stream::Case;

/// A field and its record, as a caller lends them.
#[derive(Clone)]
pub struct Record {
    pub case: Case,
    pub values: Vec<u8>,
    pub bounds: Vec<f64>,
    pub strict: u32,
    f: Vec<f64>,
    u: Vec<u32>,
}

impl Record {
    pub fn new(case: &Case) -> Self {
        let (n, m) = (case.n(), case.weights.len());
        Self {
            case: case.clone(),
            values: case.start.clone(),
            bounds: vec![0.0; 2 * n],
            strict: 0,
            f: vec![0.0; 8 * n + 4 * m + 16],
            u: vec![0; 16 * n + 8 * m + 16],
        }
    }

    /// The bits of the bounds.
    pub fn bits(&self) -> Vec<u64> {
        self.bounds.iter().map(|b| b.to_bits()).collect()
    }

    pub fn make(&mut self) -> u64 {
        let Case {
            linear: c,
            rows,
            columns,
            weights: q,
            ..
        } = &self.case;
        unsafe {
            library::ombradiec_keep(
                c.as_ptr(),
                c.len(),
                rows.as_ptr(),
                rows.len(),
                columns.as_ptr(),
                columns.len(),
                q.as_ptr(),
                q.len(),
                self.values.as_ptr(),
                self.values.len(),
                self.bounds.as_mut_ptr(),
                self.bounds.len(),
                &mut self.strict,
                self.f.as_mut_ptr(),
                self.f.len(),
                self.u.as_mut_ptr(),
                self.u.len(),
            )
        }
    }

    pub fn pin(&mut self, variable: usize, value: u8) -> u64 {
        let Case {
            linear: c,
            rows,
            columns,
            weights: q,
            ..
        } = &self.case;
        unsafe {
            library::ombradiec_pin(
                c.as_ptr(),
                c.len(),
                rows.as_ptr(),
                rows.len(),
                columns.as_ptr(),
                columns.len(),
                q.as_ptr(),
                q.len(),
                self.values.as_mut_ptr(),
                self.values.len(),
                self.bounds.as_mut_ptr(),
                self.bounds.len(),
                &mut self.strict,
                variable,
                value,
            )
        }
    }

    pub fn release(&mut self, variable: usize) -> u64 {
        let Case {
            linear: c,
            rows,
            columns,
            weights: q,
            ..
        } = &self.case;
        unsafe {
            library::ombradiec_release(
                c.as_ptr(),
                c.len(),
                rows.as_ptr(),
                rows.len(),
                columns.as_ptr(),
                columns.len(),
                q.as_ptr(),
                q.len(),
                self.values.as_mut_ptr(),
                self.values.len(),
                self.bounds.as_mut_ptr(),
                self.bounds.len(),
                &mut self.strict,
                variable,
            )
        }
    }

    /// An operation of a script: 0 pins, any other number releases.
    pub fn operate(&mut self, operation: &[u16]) -> u64 {
        let variable = usize::from(operation[1]);
        if operation[0] == 0 {
            self.pin(variable, operation[2].min(255) as u8)
        } else {
            self.release(variable)
        }
    }

    /// The list, the count of flat rows and the answer's number.
    pub fn close(&mut self) -> (Vec<u8>, usize, u64) {
        let mut list = vec![9; self.case.n()];
        let Case {
            linear: c,
            rows,
            columns,
            weights: q,
            ..
        } = &self.case;
        let answer = unsafe {
            library::ombradiec_close(
                c.as_ptr(),
                c.len(),
                rows.as_ptr(),
                rows.len(),
                columns.as_ptr(),
                columns.len(),
                q.as_ptr(),
                q.len(),
                self.values.as_ptr(),
                self.values.len(),
                self.bounds.as_ptr(),
                self.bounds.len(),
                list.as_mut_ptr(),
                list.len(),
                self.f.as_mut_ptr(),
                self.f.len(),
                self.u.as_mut_ptr(),
                self.u.len(),
            )
        };
        (list, (answer >> 16 & 0xfff_ffff) as usize, answer & 0xff)
    }
}
