//! All tests of the independent program, a file for each purpose.

mod alphabets;
mod comparison;
mod generators;
mod histories;
mod pairs;
mod published_examples;
mod readings_01_to_12;
mod readings_13_to_23;
mod readings_24_to_32;
mod readings_33_to_39;
mod refusals;
mod requests_e01;
mod requests_e02;
mod requests_e03;
mod requests_e04;
mod requests_e05;
mod round_trips;
mod slips;
