//! The examples of RFC 8259 and the forms of its grammar. RCL reads JSON, so
//! that each is lexed; the sign of a number is a lexeme of its own.

/// The two JSON texts of section 13, with an indentation of six.
pub const DOCUMENTS: [&str; 2] = [
    r#"      {
        "Image": {
            "Width":  800,
            "Height": 600,
            "Title":  "View from 15th Floor",
            "Thumbnail": {
                "Url":    "http://www.example.com/image/481989943",
                "Height": 125,
                "Width":  100
            },
            "Animated" : false,
            "IDs": [116, 943, 234, 38793]
          }
      }
"#,
    r#"      [
        {
           "precision": "zip",
           "Latitude":  37.7668,
           "Longitude": -122.3959,
           "Address":   "",
           "City":      "SAN FRANCISCO",
           "State":     "CA",
           "Zip":       "94107",
           "Country":   "US"
        },
        {
           "precision": "zip",
           "Latitude":  37.371991,
           "Longitude": -122.026020,
           "Address":   "",
           "City":      "SUNNYVALE",
           "State":     "CA",
           "Zip":       "94085",
           "Country":   "US"
        }
      ]
"#,
];

/// The small texts of sections 6, 7, 8.3 and 13, and the forms of sections 2 to 7.
const FORMS: [&str; 70] = [
    "\"Hello world!\"",
    "42",
    "true",
    "false",
    "null",
    "True",
    "[]",
    "{}",
    "[ ]",
    "{ }",
    "[1,2]",
    "[1,2,]",
    "{\"a\":1}",
    "{\"a\":1,\"a\":2}",
    "{\"a\":[{\"b\":null}]}",
    "\t[\r\n\t1\r\n]\r\n",
    "[1] ",
    " [1]",
    "0",
    "-0",
    "-1",
    "1",
    "10",
    "01",
    "-01",
    "+1",
    "1.0",
    "1.5",
    "-1.5",
    "0.1",
    "00.1",
    ".5",
    "5.",
    "1E400",
    "3.141592653589793238462643383279",
    "9007199254740991",
    "-9007199254740991",
    "1e5",
    "1E5",
    "1e+5",
    "1e-5",
    "1E+05",
    "1.5e10",
    "0e0",
    "0E-0",
    "1e",
    "1e+",
    "1.e1",
    "-",
    "--1",
    "NaN",
    "Infinity",
    "-Infinity",
    "\"\"",
    "\"\\u005C\"",
    "\"\\u005c\"",
    "\"\\\\\"",
    "\"\\uD834\\uDD1E\"",
    "\"\\uDEAD\"",
    "\"a\\\\b\"",
    "\"a\\u005Cb\"",
    "\"\\\"\\/\\b\\f\\n\\r\\t\"",
    "\"\\u0000\\u001F\\uFFFF\"",
    "\"\\a\"",
    "\"\\u00G0\"",
    "\"\\U0041\"",
    "\"a\tb\"",
    "\"a\nb\"",
    "'a'",
    "\"\u{1d11e}\u{7f}\"",
];

/// The forms, and section 13's documents whole.
pub fn texts() -> Vec<Vec<u8>> {
    let all = FORMS.iter().chain(&DOCUMENTS);
    all.map(|text| text.as_bytes().to_vec()).collect()
}

/// The forms alone.
pub fn forms() -> Vec<Vec<u8>> {
    FORMS.iter().map(|text| text.as_bytes().to_vec()).collect()
}
