//! libxml2 in this process: its parser, its dump and its validation by a RELAX NG schema.

use crate::measure::Task;
use crate::tasks::Column;
use std::ffi::{c_char, c_int, c_void, CStr};
use std::hint::black_box;
use std::ptr::{null, null_mut};

#[allow(non_upper_case_globals)]
extern "C" {
    static xmlParserVersion: *const c_char;
    static xmlFree: extern "C" fn(*mut c_void);
    fn xmlReadMemory(
        text: *const u8,
        length: c_int,
        address: *const c_char,
        encoding: *const c_char,
        options: c_int,
    ) -> *mut c_void;
    fn xmlFreeDoc(document: *mut c_void);
    fn xmlDocDumpMemory(document: *mut c_void, bytes: *mut *mut u8, length: *mut c_int);
    fn xmlRelaxNGNewMemParserCtxt(text: *const u8, length: c_int) -> *mut c_void;
    fn xmlRelaxNGParse(parser: *mut c_void) -> *mut c_void;
    fn xmlRelaxNGFreeParserCtxt(parser: *mut c_void);
    fn xmlRelaxNGNewValidCtxt(schema: *mut c_void) -> *mut c_void;
    fn xmlRelaxNGValidateDoc(context: *mut c_void, document: *mut c_void) -> c_int;
    fn xmlRelaxNGSetValidStructuredErrors(
        context: *mut c_void,
        handler: extern "C" fn(*mut c_void, *mut c_void),
        user: *mut c_void,
    );
    fn xmlRelaxNGFreeValidCtxt(context: *mut c_void);
    fn xmlRelaxNGFree(schema: *mut c_void);
}

/// The version as libxml2 gives it.
pub fn version() -> Option<String> {
    // SAFETY: a constant string of the library.
    let version = unsafe { CStr::from_ptr(xmlParserVersion) };
    Some(version.to_string_lossy().into_owned())
}

/// Whether a text is valid by a schema.
pub fn accepts(schema: &str, text: &[u8]) -> Option<bool> {
    Some(Schema::new(schema).accepts(&Document::parse(text)))
}

/// What the dump of a text holds, without the XML declaration and the byte 10 at its end.
pub fn written(text: &[u8]) -> Option<Vec<u8>> {
    const DECLARATION: &[u8] = b"<?xml version=\"1.0\"?>\n";
    let dump = Document::parse(text).dump();
    let form = dump.as_slice().strip_prefix(DECLARATION)?;
    Some(form.strip_suffix(b"\n")?.to_vec())
}

/// A parse, a dump and a validation of one text.
pub fn tasks(text: &'static [u8], schema: &str) -> Vec<(Column, Box<dyn Task>)> {
    let schema = Schema::new(schema);
    let document = Document::parse(text);
    let parse = Parse {
        text,
        documents: Vec::new(),
    };
    let dump = Dump {
        document: Document::parse(text),
        dumps: Vec::new(),
    };
    let validate = move || {
        black_box(schema.accepts(black_box(&document)));
    };
    vec![
        (Column::Parse, Box::new(parse)),
        (Column::Dump, Box::new(dump)),
        (Column::Validate, Box::new(validate)),
    ]
}

/// A parse; the documents are freed outside the measurement.
struct Parse {
    text: &'static [u8],
    documents: Vec<Document>,
}

impl Task for Parse {
    fn call(&mut self) {
        self.documents.push(Document::parse(black_box(self.text)));
    }

    fn after(&mut self) {
        self.documents.clear();
    }
}

/// A dump; the bytes are freed outside the measurement.
struct Dump {
    document: Document,
    dumps: Vec<Bytes>,
}

impl Task for Dump {
    fn call(&mut self) {
        self.dumps.push(black_box(&self.document).dump());
    }

    fn after(&mut self) {
        self.dumps.clear();
    }
}

/// A parsed document.
struct Document(*mut c_void);

impl Document {
    fn parse(text: &[u8]) -> Document {
        // SAFETY: the text is read during the call alone.
        let document =
            unsafe { xmlReadMemory(text.as_ptr(), text.len() as c_int, null(), null(), 0) };
        assert!(!document.is_null(), "libxml2 takes the form");
        Document(document)
    }

    fn dump(&self) -> Bytes {
        let mut bytes = Bytes {
            start: null_mut(),
            length: 0,
        };
        // SAFETY: the document is whole; the library allots the bytes.
        unsafe { xmlDocDumpMemory(self.0, &mut bytes.start, &mut bytes.length) };
        bytes
    }
}

impl Drop for Document {
    fn drop(&mut self) {
        // SAFETY: nobody else has the document.
        unsafe { xmlFreeDoc(self.0) }
    }
}

/// Bytes that libxml2 allotted.
struct Bytes {
    start: *mut u8,
    length: c_int,
}

impl Bytes {
    fn as_slice(&self) -> &[u8] {
        // SAFETY: so many bytes were allotted there.
        unsafe { std::slice::from_raw_parts(self.start, self.length as usize) }
    }
}

impl Drop for Bytes {
    fn drop(&mut self) {
        // SAFETY: nobody else has the bytes.
        unsafe { xmlFree(self.start.cast()) }
    }
}

/// A schema, ready to validate documents.
struct Schema {
    schema: *mut c_void,
    context: *mut c_void,
}

extern "C" fn say_nothing(_user: *mut c_void, _error: *mut c_void) {}

impl Schema {
    fn new(text: &str) -> Schema {
        // SAFETY: the text is read by the parse, before the parser's context is freed.
        unsafe {
            let parser = xmlRelaxNGNewMemParserCtxt(text.as_ptr(), text.len() as c_int);
            let schema = xmlRelaxNGParse(parser);
            xmlRelaxNGFreeParserCtxt(parser);
            assert!(!schema.is_null(), "libxml2 takes the schema");
            let context = xmlRelaxNGNewValidCtxt(schema);
            xmlRelaxNGSetValidStructuredErrors(context, say_nothing, null_mut());
            Schema { schema, context }
        }
    }

    fn accepts(&self, document: &Document) -> bool {
        // SAFETY: both are whole.
        unsafe { xmlRelaxNGValidateDoc(self.context, document.0) == 0 }
    }
}

impl Drop for Schema {
    fn drop(&mut self) {
        // SAFETY: nobody else has the schema.
        unsafe {
            xmlRelaxNGFreeValidCtxt(self.context);
            xmlRelaxNGFree(self.schema);
        }
    }
}
