"""The jars of Debian's packages that have the readers of libraries, of which tests read streams."""
from pathlib import Path

JARS = Path("/usr/share/java")
READERS = {
    "spring": ("spring3-core.jar", "commons-logging.jar"),
    "activemq": ("activemq-client.jar", "slf4j-api.jar", "geronimo-jms_1.1_spec.jar"),
    "shiro": ("shiro-core.jar", "slf4j-api.jar"),
    "tomcat": ("tomcat9-catalina.jar", "tomcat9-util.jar", "tomcat9-juli.jar"),
    "replication": ("tomcat9-tribes.jar", "tomcat9-util.jar", "tomcat9-juli.jar"),
    "lang3": ("commons-lang3.jar",),
}
# ActiveMQ's reader also asks which packages it may take; here it takes all.
PROPERTIES = ("-Dorg.apache.activemq.SERIALIZABLE_PACKAGES=*",)


def paths(names):
    """Where the jars of these names are, or None where one is missing."""
    return None if any(not (JARS / it).exists() for it in names) else [str(JARS / it) for it in names]
