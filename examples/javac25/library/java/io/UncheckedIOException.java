package java.io;

public class UncheckedIOException extends RuntimeException {}
