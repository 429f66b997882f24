package java.lang;

public final class MatchException extends RuntimeException {}
