//! The command over the sample sheets and over drawn ones: what it prints, what it takes, and the files it leaves.
mod answers;
mod drawn;
mod every;
mod files;
mod hop;
mod index;
mod lines;
mod mark;
mod memory;
mod pages;
mod run;
mod tails;
mod texts;
mod tools;
