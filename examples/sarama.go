// A topic is made, written and read by sarama 1.22 (Debian: golang-go, golang-github-shopify-sarama-dev), and deleted:
//
//	GO111MODULE=off GOPATH=/usr/share/gocode go run examples/sarama.go HOST:PORT USER PASSWORD TOPIC [VERSION]
//
// With the version 0.11.0.0, and without one, it logs in by SaslHandshake 0; with 1.0.0 by a request, and it asks for Metadata 5. Either way
// it asks for no version that `kbroker serve --stock-clients` does not serve.
package main

import (
	"fmt"
	"log"
	"os"

	"github.com/Shopify/sarama"
)

func must(err error) {
	if err != nil {
		log.Fatalln("sarama:", err)
	}
}

func main() {
	if len(os.Args) < 5 || len(os.Args) > 6 {
		log.Fatalln("usage: sarama HOST:PORT USER PASSWORD TOPIC [VERSION]")
	}
	brokers, topic := os.Args[1:2], os.Args[4]
	config := sarama.NewConfig()
	config.Version = sarama.V0_11_0_0
	if len(os.Args) == 6 {
		version, err := sarama.ParseKafkaVersion(os.Args[5])
		must(err)
		config.Version = version
	}
	config.Net.SASL.Enable = true
	config.Net.SASL.User = os.Args[2]
	config.Net.SASL.Password = os.Args[3]
	config.Producer.Return.Successes = true

	admin, err := sarama.NewClusterAdmin(brokers, config)
	must(err)
	defer admin.Close()
	must(admin.CreateTopic(topic, &sarama.TopicDetail{NumPartitions: 1, ReplicationFactor: 1}, false))

	producer, err := sarama.NewSyncProducer(brokers, config)
	must(err)
	defer producer.Close()
	for _, value := range []string{"one", "two", "three"} {
		_, _, err := producer.SendMessage(&sarama.ProducerMessage{Topic: topic, Value: sarama.StringEncoder(value)})
		must(err)
	}

	consumer, err := sarama.NewConsumer(brokers, config)
	must(err)
	defer consumer.Close()
	partition, err := consumer.ConsumePartition(topic, 0, sarama.OffsetOldest)
	must(err)
	defer partition.Close()
	for i := 0; i < 3; i++ {
		message := <-partition.Messages()
		fmt.Println(message.Offset, string(message.Value))
	}
	must(admin.DeleteTopic(topic))
}
