//! The proved library, through its C interface, against the second program: one call with all that it is given (`case`), made
//! from a seed (`make`), broken in each way that document 01 names (`damage`), put to both (`calls`).

pub mod calls;
pub mod case;
pub mod damage;
pub mod make;
