//! From a closed set to a certificate.

use std::convert::Infallible;

use super::before::{each_before, forbidden};
use super::images::find_images;
use super::shape::Located;
use crate::baseline::shape::CELL;
use crate::reference::certificate::{Certificate, Cover};
use crate::reference::job::{self, Job};

/// The certificate with these members, which cover all that has to be covered.
pub fn certificate_of(job: &Job, members: &[Located]) -> Certificate {
    let located = |member: &Located| job::Located {
        state: member.state.into(),
        shape: member.shape.to_file(job.variables as usize),
    };
    Certificate {
        version: job.version,
        members: members.iter().map(located).collect(),
        covers: covers(job, members),
    }
}

/// Calls `see` for each shape that has to be covered for a member.
fn for_each_before(job: &Job, member: &Located, mut see: impl FnMut(&Located)) {
    let Ok(()) = each_before(job, member, |_, covered| -> Result<(), Infallible> {
        see(covered);
        Ok(())
    });
}

fn covers(job: &Job, members: &[Located]) -> Vec<Cover> {
    let bads = forbidden(job);
    let mut covers: Vec<Cover> = bads.iter().map(|bad| cover(members, bad)).collect();
    for member in members {
        for_each_before(job, member, |covered| covers.push(cover(members, covered)));
    }
    covers
}

/// The first member that covers a shape, with images.
fn cover(members: &[Located], covered: &Located) -> Cover {
    let found = members.iter().enumerate().find_map(|(number, member)| {
        let images = match member.state == covered.state {
            true => find_images(&member.shape, &covered.shape)?,
            false => return None,
        };
        let cells = &images[usize::from(CELL)..][..member.shape.places.cells.into()];
        Some(Cover {
            member: number,
            images: cells.iter().map(|&code| (code - CELL).into()).collect(),
        })
    });
    found.expect("the chosen members cover each other's predecessors")
}
