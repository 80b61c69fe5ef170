//! The fields of the five records of PFML by their numbers. `include/wage.h` has the same names,
//! with a `WAGE_` in front.
//!
//! A field's number is its place in the `values` of [`Record::build`](crate::Record::build), and
//! the argument `field` of [`field_number`](crate::field_number), [`field_text`](crate::field_text)
//! and [`wage_field_first`](crate::exports::wage_field_first). Fields are counted from 0 in the
//! order of their columns. A constant that ends in `_FIELDS` is how many fields the record has.
//!
//! The fields without a name are the record's letter, the taxing entity code and blank space,
//! which no caller gives; they can be read by their numbers too. T and F are written by
//! [`Walk::write_t`](crate::Walk::write_t) and [`Walk::write_f`](crate::Walk::write_f), so their
//! fields are for reading alone.

/// A, columns 2-5: the tax year, a number.
pub const A_TAX_YEAR: usize = 1;
/// A, columns 6-14: the transmitter's FEIN, a number.
pub const A_FEIN: usize = 2;
/// A, columns 19-20: the period, a number, 3, 6, 9 or 12.
pub const A_PERIOD: usize = 4;
/// A, columns 24-73: the transmitter's name, a text.
pub const A_NAME: usize = 6;
/// A, columns 74-113: the street, a text.
pub const A_STREET: usize = 7;
/// A, columns 114-138: the city, a text.
pub const A_CITY: usize = 8;
/// A, columns 139-140: the state, a text.
pub const A_STATE: usize = 9;
/// A, columns 154-158: the ZIP code, a text as `04332` or `K1A 0`.
pub const A_ZIP: usize = 11;
/// A, columns 159-163: the ZIP code's extension, a text as `-1061` or `B1`, or empty.
pub const A_ZIP_EXTENSION: usize = 12;
/// A, columns 164-193: the contact, a text.
pub const A_CONTACT: usize = 13;
/// A, columns 194-203: the phone number, a number.
pub const A_PHONE: usize = 14;
/// A, columns 204-207: the phone number's extension, a text, may be empty.
pub const A_PHONE_EXTENSION: usize = 15;
/// So many fields has A.
pub const A_FIELDS: usize = 17;

/// E, columns 2-5: the tax year, a number.
pub const E_TAX_YEAR: usize = 1;
/// E, columns 6-14: the employer's FEIN, a number.
pub const E_FEIN: usize = 2;
/// E, columns 24-73: the employer's name, a text.
pub const E_NAME: usize = 4;
/// E, columns 74-113: the street, a text.
pub const E_STREET: usize = 5;
/// E, columns 114-138: the city, a text.
pub const E_CITY: usize = 6;
/// E, columns 139-140: the state, a text.
pub const E_STATE: usize = 7;
/// E, columns 149-153: the ZIP code's extension, a text as `-1061` or `B1`, or empty. In E it comes
/// before the ZIP code.
pub const E_ZIP_EXTENSION: usize = 9;
/// E, columns 154-158: the ZIP code, a text as `04332` or `K1A 0`.
pub const E_ZIP: usize = 10;
/// E, columns 173-182: the account number, a number, or [`NO_ACCOUNT`](crate::NO_ACCOUNT).
pub const E_ACCOUNT: usize = 14;
/// E, column 187: whether the return is amended, 0 or 1.
pub const E_AMENDED: usize = 16;
/// E, columns 188-189: the period, a number, 3, 6, 9 or 12.
pub const E_PERIOD: usize = 17;
/// E, column 190: 1 if S records follow, else 0.
pub const E_S_FOLLOW: usize = 18;
/// E, column 191: the flag of fifteen employees, 0 or 1 in period 9, in another any digit.
pub const E_FIFTEEN_EMPLOYEES: usize = 19;
/// E, columns 201-230: the contact, a text.
pub const E_CONTACT: usize = 21;
/// E, columns 231-260: the email address, a text.
pub const E_EMAIL: usize = 22;
/// E, columns 261-270: the phone number, a number.
pub const E_PHONE: usize = 23;
/// E, columns 271-274: the phone number's extension, a text, may be empty.
pub const E_PHONE_EXTENSION: usize = 24;
/// E, column 282: whether the return is final, 0 or 1.
pub const E_FINAL: usize = 26;
/// E, columns 283-290: the cease date, a number as MMDDYYYY, 0 unless the return is final.
pub const E_CEASE_DATE: usize = 27;
/// So many fields has E.
pub const E_FIELDS: usize = 28;

/// S, columns 2-10: the identity number, a number, 0 if applied for.
pub const S_IDENTITY: usize = 1;
/// S, columns 11-30: the last name, a text.
pub const S_LAST_NAME: usize = 2;
/// S, columns 31-42: the first name, a text.
pub const S_FIRST_NAME: usize = 3;
/// S, columns 46-47: the period, a number, 3, 6, 9 or 12.
pub const S_PERIOD: usize = 5;
/// S, columns 48-51: the tax year, a number.
pub const S_TAX_YEAR: usize = 6;
/// S, columns 64-77: the wages, a number of cents.
pub const S_WAGES: usize = 8;
/// S, columns 147-155: the employer's FEIN, a number.
pub const S_FEIN: usize = 11;
/// So many fields has S.
pub const S_FIELDS: usize = 13;

/// T, columns 2-8: how many S records the employer has, a number.
pub const T_COUNT: usize = 1;
/// T, columns 13-21: the employer's FEIN, a number.
pub const T_FEIN: usize = 3;
/// T, columns 27-40: the wages of the employer's S records, a number of cents.
pub const T_WAGES: usize = 5;
/// So many fields has T.
pub const T_FIELDS: usize = 7;

/// F, columns 2-11: how many S records the file has, a number.
pub const F_COUNT: usize = 1;
/// F, columns 12-21: how many employers the file has, a number.
pub const F_EMPLOYERS: usize = 2;
/// F, columns 41-55: the wages of all S records, a number of cents.
pub const F_WAGES: usize = 5;
/// So many fields has F.
pub const F_FIELDS: usize = 7;
