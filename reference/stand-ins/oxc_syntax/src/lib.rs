//! Stands in for `oxc_syntax`: how a number is shown, which nothing here does.

pub mod number {
    pub trait ToJsString {
        fn to_js_string(&self) -> String;
    }

    impl ToJsString for f64 {
        fn to_js_string(&self) -> String {
            self.to_string()
        }
    }
}
