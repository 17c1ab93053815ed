package org.junit.jupiter.api.extension;

/** For tests alone: by its name the nested type that JUnit's API has since 5.13, in the place of that version where it can't be had. */
enum ExtensionContext$StoreScope {}
