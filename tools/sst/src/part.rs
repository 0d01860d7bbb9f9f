//! `sst part`: the object of one part of a program.

use crate::arguments::Arguments;
use crate::input;
use crate::link::{object, refusal};
use crate::session::{Done, Session, Status, Trouble};
use reference::parts::{self, Translated};
use reference::tables::bytes;

pub fn run(session: &mut Session, arguments: &Arguments) -> Done {
    let ([common, part], Some(out)) = (&arguments.words[..], arguments.value("output")) else {
        return Err(Trouble::Usage("part wants a common part, a part and `-o FILE`".to_string()));
    };
    let texts = [input::read(session, common)?, input::read(session, part)?];
    let [common, part] = &texts;
    let made = object(&common.bytes, &part.bytes);
    let second = parts::part(&common.bytes, &part.bytes);
    if second.map(|object| bytes(&object.words())).map_err(Translated::refused) != made {
        return Err(Trouble::Disagree(part.name.clone(), "they translate something else".to_string()));
    }
    let object = match made {
        Ok(object) => object,
        Err(refused) => return refusal(session, &texts, &refused),
    };
    input::write(out, &object)?;
    let (size, out) = (object.len(), out.to_string_lossy());
    session.out(&format!("{}: translated, object of {size} bytes: {out}\n", part.name))?;
    Ok(Status::Yes)
}
