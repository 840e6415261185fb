//! A short night at a telescope. A setup is admitted under one driver, the driver is swapped at midnight, and the call is
//! refused with 13: the mount stays still until the setup is begun again under the new driver.

use std::error::Error;

use vaskelbi::{Definition, Invocation, Port, Refusal, Registry};

const ANCHOR: Port = Port::in_default_realm(30);
const ANGLE: Port = Port::in_default_realm(31);
// The drivers count angles up to 12 and up to 24 hours.
const OLD_DRIVER: u64 = 12;
const NEW_DRIVER: u64 = 24;
const HOURS: u64 = 6;

fn begin_and_admit(registry: &mut Registry, id: u64) -> Result<Invocation, Refusal> {
    let ticket = registry.begin(id)?;
    println!("setup begins, generation {}", ticket.generation);
    let invocation = registry.admit(ticket, HOURS)?;
    println!("setup admitted: slew to {} h", invocation.argument);
    Ok(invocation)
}

fn main() -> Result<(), Box<dyn Error>> {
    let mut registry = Box::new(Registry::open(7, 100));
    let driver = Definition { provisions: &[ANGLE.key], ..Definition::new(ANCHOR, OLD_DRIVER) };
    let id = registry.register(&driver)?;
    println!("evening: driver {OLD_DRIVER} is registered, id {id}");
    let invocation = begin_and_admit(&mut registry, id)?;

    let former = registry.replace(id, NEW_DRIVER)?;
    println!("midnight: driver {former} goes, driver {NEW_DRIVER} comes");
    let refusal = registry.call(invocation).expect_err("the driver was swapped");
    assert_eq!(refusal, Refusal::Stale);
    println!("the call is refused with {}, the mount stays still", refusal.number());

    registry.fail(id)?;
    registry.finish(id)?;
    let invocation = begin_and_admit(&mut registry, id)?;
    let receipt = registry.call(invocation)?;
    println!("the call is accepted: driver {} slews to {} h", receipt.payload, receipt.argument);
    registry.offer(id, ANGLE, receipt.argument)?;
    registry.ready(id)?;
    let angle = registry.visible(ANGLE).expect("the driver is Active");
    println!("the driver is ready, its angle is {angle} h");

    let mut buffer = [0; 1024];
    print!("the registry as text:\n{}", registry.text(&mut buffer)?);
    Ok(())
}
