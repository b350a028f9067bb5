//! What no sequence of steps shows: limits that are refused, a visitor that fails, a flash that fails.
use std::rc::Rc;

use oracle::dm::clusters::time_sync::TimeZones;
use oracle::driver::{make_store, Device};
use oracle::error::{Error, ErrorCode};
use oracle::trace::{self, Effect};
use timesync::Limits;

use crate::counts::Counts;
use crate::flash::{Flash, FAILED};
use crate::list::{self, List};
use crate::pair::{did, Done, Port, NO_WINDOWS};

pub fn run(counts: &mut Counts) -> Done {
    limits(counts)?;
    visitors(counts)?;
    failing_flash(counts)
}

fn limits(counts: &mut Counts) -> Done {
    for time_zone_max in 0..=Limits::LARGEST.time_zone_max + 1 {
        let port = Port::new(Limits { time_zone_max, dst_offset_max: 1 }, Rc::default());
        let good = make_store(time_zone_max, 1).is_some();
        let want = if good { Ok(()) } else { Err(ErrorCode::Invalid.into()) };
        counts.same("limits", &port.map(drop), &want)?;
    }
    Ok(())
}

/// How often a visitor that fails is called for zones and for windows, and what comes back
fn visited(time_zones: &dyn TimeZones) -> [(u64, Result<(), Error>); 2] {
    let (mut zones, mut windows) = (0, 0);
    let fails = |times: &mut u64| {
        *times += 1;
        Err(FAILED.into())
    };
    let (zone, window) =
        (time_zones.time_zone(&mut |_| fails(&mut zones)), time_zones.dst_offset(&mut |_| fails(&mut windows)));
    [(zones, zone), (windows, window)]
}

fn visitors(counts: &mut Counts) -> Done {
    let port = port()?;
    let rust = make_store(2, 2).ok_or("limits that make no list store")?;
    let accepted = rust.set_time_zone(&list::zones(2, 0)).and(rust.set_dst_offset(&list::windows(2)));
    accepted.map_err(|error| format!("the Rust refuses good lists: {error}"))?;
    trace::take();
    counts.same("a visitor that fails", &visited(&*port.time_zones), &visited(rust.as_time_zones()))
}

/// A device with two zones and two windows
fn port() -> Result<Port, String> {
    let port = Port::new(Limits::DEVICE, Rc::<Flash>::default());
    let port = port.map_err(|error| format!("the port takes no limits: {error}"))?;
    let zones = List::Zones(list::zones(2, 0)).send(&port.device);
    let both = zones.and(List::Windows(list::windows(2)).send(&port.device));
    both.map_err(|error| format!("the port refuses good lists: {error}"))?;
    trace::take();
    Ok(port)
}

/// The answer is the flash's; the lists are those of the command, and nothing is reported. rs-matter's handler does so
/// with its own store.
fn failing_flash(counts: &mut Counts) -> Done {
    let port = port()?;
    let empty = |device: &Device| device.attr_windows(None).map(|windows| windows == NO_WINDOWS);
    port.flash.fails.set(true);
    let startup = did(&port.device, Device::startup);
    counts.same("Startup, the flash fails", &startup, &(Err(FAILED.into()), Vec::new()))?;
    counts.same("Startup, the flash fails, no windows", &empty(&port.device), &Ok(false))?;
    let zones = did(&port.device, |device| List::Zones(list::zones(1, 0)).send(device));
    counts.same("SetTimeZone, the flash fails", &zones, &(Err(FAILED.into()), vec![Effect::WakeTimer]))?;
    counts.same("SetTimeZone, the flash fails, no windows", &empty(&port.device), &Ok(true))?;
    let reset = did(&port.device, Device::factory_reset);
    counts.same("FactoryReset, the flash fails", &reset, &(Err(FAILED.into()), vec![Effect::WakeTimer]))
}
