"""The parts of classck-jar, beside those that it has in common with examples/judge_jar.

  command     the command line, and what is begun before all else is loaded
  ahead       a call of the program that is begun as an earlier one ended
  cache       the cache: its folders and files, and its bound
  gate        what is judged and reported, in turn
  jdk         the classes of a JDK
  class_path  jars and folders of a class path, and the Class-Path of manifests
  inputs      the jars and folders that are judged
  verdicts    the three answers, of each class and of all
  policy      what may be missing and what is let pass
  reports     the report as text and as JSON Lines
  sarif       the report as SARIF; helps: what it says that can be done
  junit       the report as JUnit XML
"""
