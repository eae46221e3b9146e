//! Builds an order, plans it with both placers, checks and prints the plan, then moves a box on the sheet and prints what the check finds.
//! It prints bindings/printed.txt, as the C example does. Run: cargo run --example order
use waikurpeho::{Container, Kind, Order, Placer, Refusal, Rule, Sheet};

fn print_sheet(sheet: &Sheet) {
    for (i, line) in sheet.lines.iter().enumerate() {
        let [x, y, z] = line.at;
        println!("  line {i}: kind {} instance {} at {x} {y} {z} orientation {}", line.id, line.instance, line.orientation);
    }
    for id in &sheet.unplaced {
        println!("  unplaced: kind {id}");
    }
}

fn print_findings(sheet: &Sheet) -> Result<(), Refusal> {
    let findings = sheet.check()?;
    println!("findings {}", findings.len());
    for finding in findings {
        println!("  {finding}");
    }
    Ok(())
}

fn main() -> Result<(), Box<dyn std::error::Error>> {
    let order = Order::new(Container::new(400.0, 300.0, 200.0).with_margin(10.0).with_spacing(5.0).with_limit(20.0))
        .with(Kind::new(7, 3, [180.0, 120.0, 90.0]).with_rule(Rule::Upright).with_mass(4.0))
        .with(Kind::new(8, 2, [80.0, 100.0, 120.0]).with_mass(5.0));
    println!("order: {} bytes", order.to_bytes().len());
    let layers = order.plan(Placer::Layers)?;
    println!("layers: considered {}, utilization {:.3}", layers.considered, layers.utilization);
    print_sheet(&layers.sheet);
    let points = order.plan(Placer::Points)?;
    println!("points: considered {}, utilization {:.3}", points.considered, points.utilization);
    print_sheet(&points.sheet);
    println!("fill {} per thousand", points.sheet.fill()?);
    print_findings(&points.sheet)?;
    println!("with the second box moved, and no list of unplaced kinds:");
    let mut spoilt = points.sheet;
    spoilt.lines[1].at[0] -= 3.0;
    spoilt.unplaced.clear();
    print_findings(&spoilt)?;
    Ok(())
}
