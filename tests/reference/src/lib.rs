//! An independent implementation of document 01, exact on 128-bit integers.
//!
//! It shares nothing with the product: no code, no formula of its engine, not even its algorithm for the disk. The expected
//! values of the tests come from here or from document 01 itself.
//!
//! | Module | What it is |
//! |---|---|
//! | [`refusal`], [`limits`] | the refusal numbers; the em boxes and the other limits |
//! | [`geometry`] | points, disks in lowest terms, containment, the disks of one, two and three points |
//! | [`definition`] | the smallest disk of a few points, by its definition |
//! | [`smallest`] | the smallest enclosing disk, by growing a set of at most three points |
//! | [`support`] | the first support set (document 01: rim set), by trying all in order |
//! | [`procedure`] | Welzl's B_MTFDISK, transcribed: count of tests and order left |
//! | [`two_fixed`] | the smallest disk with two points on its boundary (document 02, item 5), and drawn lists for it |
//! | [`chosen`] | the smallest disk with one or two points of the list on its boundary (document 02, item 6), and drawn lists for it |
//! | [`traced`] | the smallest disk of points known only to within a tolerance (document 02, item 7), and drawn lists for it |
//! | [`hull`] | a list reduced to the corners of its convex hull (document 02, item 8), and drawn lists for it |
//! | [`stretch`] | the two points farthest apart (document 02, item 11), and drawn lists for it |
//! | [`engine`] | the disk engine: checks, then the four answers |
//! | [`description`] | the loader |
//! | [`drawing`] | points from a drawing program (document 02, item 2) |
//! | [`sheet`] | the sheet opener, and drawn sheets to be run or estimated |
//! | [`run`] | a whole sheet worked under one allowance of tests (document 02, item 12), and drawn sheets for it |
//! | [`estimate`] | what a sheet will take, with no disk worked out (document 02, item 13), and drawn sheets for it |
//! | [`belonging`] | whether points belong to a disk (document 02, item 9), by its words |
//! | [`record`] | its two forms, validity, writer and reader |
//! | [`figures`] | the cutting radius and the preview |
//! | [`floats`] | a float by its bits, and the float nearest to a fraction, in whole numbers |
//! | [`preview_error`] | by how much a preview deviates from the centre (document 02, item 14) |
//! | [`near_bound`] | disks whose preview deviates by nearly the bound |
//! | [`listing`], [`sheet_listing`] | what the listing programs print for a description, and for a sheet |
//! | [`inputs`] | what a call is given |
//! | [`random`], [`lists`], [`damage`] | drawn lists, descriptions, sheets and records, each by its seed |
//! | [`worst`] | lists that cost many tests |
//! | [`letters`] | the letters A to K of document 01 |
//! | [`edges`] | the edges of documents 01 and 02, by hand |
//! | [`vectors`] | a case of the test program for each call, in its layout |
//! | [`stored`] | the stored cases |

pub mod belonging;
pub mod chosen;
pub mod damage;
pub mod definition;
pub mod description;
pub mod drawing;
pub mod edges;
pub mod engine;
pub mod estimate;
pub mod figures;
pub mod floats;
pub mod geometry;
pub mod hull;
pub mod inputs;
pub mod letters;
pub mod limits;
pub mod listing;
pub mod lists;
pub mod near_bound;
pub mod preview_error;
pub mod procedure;
pub mod random;
pub mod record;
pub mod refusal;
pub mod run;
pub mod sheet;
pub mod sheet_listing;
pub mod smallest;
pub mod stored;
pub mod stretch;
pub mod support;
pub mod traced;
pub mod two_fixed;
pub mod vectors;
pub mod worst;
