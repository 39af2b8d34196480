//! A script is put to sleep and woken, with what it held.

use humdelzi::{Function, FunctionId, Pc, Reg, Setup, Step, Word};

fn main() -> Result<(), Box<dyn std::error::Error>> {
    let [own, setpoint] = [55, 820].map(|n| Word::int(n).unwrap());
    // function 0 is the caller, function 1 the script; three registers each
    let setup = Setup::new().function(Function::new(3)).function(Function::new(3));
    let (mut m, mut fuel) = setup.machine()?;
    m.grant(&mut fuel, 100)?; // the fuel record is the host's
    m.host_call(&mut fuel, FunctionId(0))?; // a frame of the caller
    m.put_word(&mut fuel, Reg(2), own)?; // its own register 2
    assert_eq!(m.coro_new(&mut fuel, Pc(0), Reg(0), FunctionId(1), 0)?, Step::Next); // the script
    assert_eq!(m.resume(&mut fuel, Pc(1), Reg(1), Reg(0), Reg(2))?, Step::Frame); // it runs
    m.put_word(&mut fuel, Reg(2), setpoint)?; // and holds a setpoint in its register 2
    assert_eq!(m.yield_(&mut fuel, Pc(0), Reg(0), Reg(2))?, Step::Frame); // it sleeps
    assert_eq!(m.look()[2], own); // the caller looks at its own registers
    assert_eq!(m.resume(&mut fuel, Pc(2), Reg(1), Reg(0), Reg(2))?, Step::Frame); // it is woken
    assert_eq!((m.look()[2], m.stack()[2]), (setpoint, own)); // what it held, and the caller's
    println!("the caller holds {}, the woken script {}", m.stack()[2], m.look()[2]);
    Ok(())
}
