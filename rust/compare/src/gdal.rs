//! GDAL's C interface, looked up in the installed library when the program runs, so that the program builds where there is none.

use std::ffi::{c_char, c_int, c_uint, c_void, CStr, CString};
use std::ptr::null;
use std::sync::atomic::{AtomicU64, Ordering::Relaxed};

extern "C" {
    fn dlopen(name: *const c_char, mode: c_int) -> *mut c_void;
    fn dlsym(library: *mut c_void, name: *const c_char) -> *mut c_void;
}

/// `RTLD_NOW`.
const NOW: c_int = 2;
/// `GDAL_OF_VECTOR | GDAL_OF_VERBOSE_ERROR`.
const VECTOR: c_uint = 0x04 | 0x40;
/// `CE_Warning`, and `CE_Failure` and what is worse.
const WARNING: c_int = 2;
const FAILURE: c_int = 3;
/// `OFTReal` and `OFTInteger` of a field.
const INTEGER: c_int = 0;
const REAL: c_int = 2;

type Handle = *mut c_void;
type OnError = extern "C" fn(c_int, c_int, *const c_char);

static WARNINGS: AtomicU64 = AtomicU64::new(0);
static FAILURES: AtomicU64 = AtomicU64::new(0);

extern "C" fn count(class: c_int, _number: c_int, _message: *const c_char) {
    if class == WARNING {
        WARNINGS.fetch_add(1, Relaxed);
    } else if class >= FAILURE {
        FAILURES.fetch_add(1, Relaxed);
    }
}

/// What GDAL has said since the last call: warnings and errors.
pub fn said() -> (u64, u64) {
    (WARNINGS.swap(0, Relaxed), FAILURES.swap(0, Relaxed))
}

macro_rules! calls {
    ($($name:ident($($type:ty),*) -> $answer:ty;)*) => {
        #[allow(non_snake_case)]
        pub struct Gdal { $($name: extern "C" fn($($type),*) -> $answer,)* }

        impl Gdal {
            fn look_up(library: Handle) -> Option<Gdal> {
                Some(Gdal { $($name: {
                    let name = CString::new(stringify!($name)).ok()?;
                    let call = unsafe { dlsym(library, name.as_ptr()) };
                    if call.is_null() { return None; }
                    unsafe { std::mem::transmute::<Handle, extern "C" fn($($type),*) -> $answer>(call) }
                },)* })
            }
        }
    };
}

calls! {
    GDALAllRegister() -> ();
    GDALVersionInfo(*const c_char) -> *const c_char;
    CPLSetErrorHandler(OnError) -> *mut c_void;
    CSLDestroy(*mut *mut c_char) -> ();
    VSIFree(*mut c_void) -> ();
    GDALOpenEx(*const c_char, c_uint, *const *const c_char, *const *const c_char, *const *const c_char) -> Handle;
    GDALClose(Handle) -> c_int;
    GDALDatasetGetLayerCount(Handle) -> c_int;
    GDALDatasetGetLayer(Handle, c_int) -> Handle;
    GDALGetMetadataDomainList(Handle) -> *mut *mut c_char;
    GDALGetMetadata(Handle, *const c_char) -> *mut *mut c_char;
    OGR_L_GetName(Handle) -> *const c_char;
    OGR_L_GetFeatureCount(Handle, c_int) -> i64;
    OGR_L_GetExtent(Handle, *mut [f64; 4], c_int) -> c_int;
    OGR_L_GetSpatialRef(Handle) -> Handle;
    OGR_L_GetLayerDefn(Handle) -> Handle;
    OGR_FD_GetFieldCount(Handle) -> c_int;
    OGR_FD_GetFieldDefn(Handle, c_int) -> Handle;
    OSRExportToWkt(Handle, *mut *mut c_char) -> c_int;
    OGR_L_ResetReading(Handle) -> ();
    OGR_L_GetNextFeature(Handle) -> Handle;
    OGR_F_Destroy(Handle) -> ();
    OGR_F_GetFID(Handle) -> i64;
    OGR_F_GetGeometryRef(Handle) -> Handle;
    OGR_F_GetFieldCount(Handle) -> c_int;
    OGR_F_GetFieldDefnRef(Handle, c_int) -> Handle;
    OGR_Fld_GetNameRef(Handle) -> *const c_char;
    OGR_Fld_GetType(Handle) -> c_int;
    OGR_F_IsFieldSetAndNotNull(Handle, c_int) -> c_int;
    OGR_F_GetFieldAsString(Handle, c_int) -> *const c_char;
    OGR_F_GetFieldAsDouble(Handle, c_int) -> f64;
    OGR_G_GetGeometryName(Handle) -> *const c_char;
    OGR_G_GetGeometryCount(Handle) -> c_int;
    OGR_G_GetGeometryRef(Handle, c_int) -> Handle;
    OGR_G_GetPointCount(Handle) -> c_int;
    OGR_G_GetPoints(Handle, *mut f64, c_int, *mut f64, c_int, *mut f64, c_int) -> c_int;
}

/// A field of a feature that is set.
#[derive(Clone, Debug, PartialEq)]
pub enum Field {
    Number(f64),
    Text(String),
}

/// A feature: its number, the kind of its geometry, its parts' points (east, north, height) and its fields.
#[derive(Clone, Debug, PartialEq)]
pub struct Feature {
    pub number: i64,
    pub kind: String,
    pub parts: Vec<Vec<[f64; 3]>>,
    pub fields: Vec<(String, Field)>,
}

impl Feature {
    pub fn field(&self, name: &str) -> Option<&Field> {
        self.fields.iter().find(|f| f.0 == name).map(|f| &f.1)
    }
}

fn text(chars: *const c_char) -> String {
    if chars.is_null() {
        return String::new();
    }
    unsafe { CStr::from_ptr(chars) }.to_string_lossy().into_owned()
}

/// The texts of a list that ends with a null, or none where there is no list.
fn listed(list: *mut *mut c_char) -> Vec<String> {
    let mut texts = Vec::new();
    if !list.is_null() {
        let entries = (0..).map(|number| unsafe { *list.add(number) });
        texts.extend(entries.take_while(|chars| !chars.is_null()).map(|chars| text(chars)));
    }
    texts
}

impl Gdal {
    /// The installed library, or nothing.
    pub fn load() -> Option<Gdal> {
        let names = std::iter::once("libgdal.so".to_string()).chain((20..60).rev().map(|n| format!("libgdal.so.{n}")));
        for name in names {
            let library = unsafe { dlopen(CString::new(name).ok()?.as_ptr(), NOW) };
            if !library.is_null() {
                let gdal = Gdal::look_up(library)?;
                (gdal.GDALAllRegister)();
                (gdal.CPLSetErrorHandler)(count);
                return Some(gdal);
            }
        }
        None
    }

    pub fn version(&self) -> String {
        text((self.GDALVersionInfo)(c"RELEASE_NAME".as_ptr()))
    }

    /// The sheet as GDAL opens it, or null.
    fn open(&self, path: &str) -> Handle {
        let path = CString::new(path).expect("a path without zeros");
        let drivers = [c"SXF".as_ptr(), null()];
        (self.GDALOpenEx)(path.as_ptr(), VECTOR, drivers.as_ptr(), null(), null())
    }

    fn each(&self, path: &str, mut on: impl FnMut(Handle)) -> bool {
        let sheet = self.open(path);
        if sheet.is_null() {
            return false;
        }
        for number in 0..(self.GDALDatasetGetLayerCount)(sheet) {
            let layer = (self.GDALDatasetGetLayer)(sheet, number);
            (self.OGR_L_ResetReading)(layer);
            loop {
                let feature = (self.OGR_L_GetNextFeature)(layer);
                if feature.is_null() {
                    break;
                }
                on(feature);
                (self.OGR_F_Destroy)(feature);
            }
        }
        (self.GDALClose)(sheet);
        true
    }

    /// What GDAL says of a sheet besides its features, or nothing if it does not open it: the sheet's metadata, and each layer's name, metadata,
    /// count of features, extent, reference system and fields.
    pub fn about(&self, path: &str) -> Option<Vec<String>> {
        let sheet = self.open(path);
        if sheet.is_null() {
            return None;
        }
        let mut about = self.metadata(sheet);
        for number in 0..(self.GDALDatasetGetLayerCount)(sheet) {
            let layer = (self.GDALDatasetGetLayer)(sheet, number);
            about.push(format!("layer {}", text((self.OGR_L_GetName)(layer))));
            about.extend(self.metadata(layer));
            about.push(format!("{} features", (self.OGR_L_GetFeatureCount)(layer, 1)));
            let mut extent = [0.0; 4];
            let known = (self.OGR_L_GetExtent)(layer, &mut extent, 1);
            about.push(format!("extent {known} {extent:?}"));
            about.push(format!("reference system {}", self.reference_system(layer)));
            about.extend(self.fields(layer));
        }
        (self.GDALClose)(sheet);
        Some(about)
    }

    /// The metadata of a sheet or a layer, in all its domains.
    fn metadata(&self, of: Handle) -> Vec<String> {
        let domains = (self.GDALGetMetadataDomainList)(of);
        let mut metadata = Vec::new();
        for domain in listed(domains) {
            let name = CString::new(domain).expect("a domain without zeros");
            metadata.extend(listed((self.GDALGetMetadata)(of, name.as_ptr())));
        }
        (self.CSLDestroy)(domains);
        metadata
    }

    fn reference_system(&self, layer: Handle) -> String {
        let system = (self.OGR_L_GetSpatialRef)(layer);
        let mut chars = std::ptr::null_mut();
        if !system.is_null() {
            (self.OSRExportToWkt)(system, &mut chars);
        }
        let told = text(chars);
        (self.VSIFree)(chars.cast());
        told
    }

    /// The names and types of a layer's fields.
    fn fields(&self, layer: Handle) -> Vec<String> {
        let definition = (self.OGR_L_GetLayerDefn)(layer);
        let field = |number: c_int| {
            let field = (self.OGR_FD_GetFieldDefn)(definition, number);
            format!("field {} of type {}", text((self.OGR_Fld_GetNameRef)(field)), (self.OGR_Fld_GetType)(field))
        };
        (0..(self.OGR_FD_GetFieldCount)(definition)).map(field).collect()
    }

    /// All features of a sheet in the order of their numbers, or nothing if GDAL does not open it.
    pub fn read(&self, path: &str) -> Option<Vec<Feature>> {
        let mut features = Vec::new();
        let opened = self.each(path, |feature| features.push(self.feature(feature)));
        features.sort_by_key(|f: &Feature| f.number);
        opened.then_some(features)
    }

    /// Reads all features and copies their points out; answers how many there were of both.
    pub fn run_through(&self, path: &str) -> (u64, u64) {
        let (mut features, mut points) = (0, 0);
        let mut out = Vec::new();
        self.each(path, |feature| {
            features += 1;
            self.points((self.OGR_F_GetGeometryRef)(feature), &mut |line| points += self.copy(line, &mut out));
        });
        (features, points)
    }

    fn copy(&self, line: Handle, out: &mut Vec<[f64; 3]>) -> u64 {
        let count = (self.OGR_G_GetPointCount)(line) as usize;
        out.resize(count, [0.0; 3]);
        if count > 0 {
            let start = out.as_mut_ptr().cast::<f64>();
            unsafe { (self.OGR_G_GetPoints)(line, start, 24, start.add(1), 24, start.add(2), 24) };
        }
        count as u64
    }

    /// Goes to the lines and points that a geometry is made of.
    fn points(&self, geometry: Handle, on: &mut impl FnMut(Handle)) {
        if geometry.is_null() {
            return;
        }
        match (self.OGR_G_GetGeometryCount)(geometry) {
            0 => on(geometry),
            count => (0..count).for_each(|n| self.points((self.OGR_G_GetGeometryRef)(geometry, n), on)),
        }
    }

    fn feature(&self, feature: Handle) -> Feature {
        let geometry = (self.OGR_F_GetGeometryRef)(feature);
        let mut parts = Vec::new();
        self.points(geometry, &mut |line| {
            let mut part = Vec::new();
            self.copy(line, &mut part);
            parts.push(part);
        });
        let mut fields = Vec::new();
        for number in 0..(self.OGR_F_GetFieldCount)(feature) {
            if (self.OGR_F_IsFieldSetAndNotNull)(feature, number) == 0 {
                continue;
            }
            let definition = (self.OGR_F_GetFieldDefnRef)(feature, number);
            let field = match (self.OGR_Fld_GetType)(definition) {
                INTEGER | REAL => Field::Number((self.OGR_F_GetFieldAsDouble)(feature, number)),
                _ => Field::Text(text((self.OGR_F_GetFieldAsString)(feature, number))),
            };
            fields.push((text((self.OGR_Fld_GetNameRef)(definition)), field));
        }
        let kind = if geometry.is_null() { String::new() } else { text((self.OGR_G_GetGeometryName)(geometry)) };
        Feature { number: (self.OGR_F_GetFID)(feature), kind, parts, fields }
    }
}
