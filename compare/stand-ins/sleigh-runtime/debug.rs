//! Stand-in: nothing of this module is named by the text.
